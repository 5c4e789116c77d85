"""Frames as TCP brings them: many at once, cut anywhere, byte by byte, and behind one that closes."""
import time

import layout
import messages
from held import hold, same
from messages import log_tree
from wire import Client, code_of, pair, span

MANY = 400


def pipelined(client, count):
    """Requests of all kinds, whose replies depend on their order."""
    made = []
    for n in range(count):
        key = b"key %d" % (n % 7)
        made.append(client.request("PUT", pair(key, b"%d" % n, force=1), b"%d " % n * (n % 90)) if n % 3 == 0 else
                    client.request("DELETE", pair(key, force=1)) if n % 11 == 5 else
                    client.request("GETLOG", log_tree([2, 6])) if n % 13 == 4 else
                    client.request("GETKEYRANGE", span(b"", b"\xff")) if n % 5 == 1 else client.request("GET", pair(key)))
    return b"".join(request.bytes() for request in made)


def in_pieces(client, what, data, pieces):
    """Sends bytes in pieces that arrive one by one; the replies are the model's."""
    for piece in pieces:
        hold(f"{what}: the connection was closed early", client.peer.send(piece))
        time.sleep(.0004)
    return client.hear(what, client.told(data))


def every_cut(client):
    """Three small frames, two of them one after the other, cut in two at every byte."""
    count = 0
    for kind, body, value in ("NOOP", None, b""), ("PUT", lambda: pair(b"k", b"v", force=1), b"value"), ("GET", lambda: pair(b"k"), b""):
        length = len(client.request(kind, body and body(), value).bytes())
        for cut in range(1, 2 * length):
            data = b"".join(client.request(kind, body and body(), value).bytes() for _ in "12")
            in_pieces(client, f"{kind} twice, cut at {cut}", data, [data[:cut], data[cut:]])
            count += 1
    return count


def frames(site):
    """Requests many at once, cut at every byte, byte by byte, and in random pieces: replies and image are the model's."""
    path, box = site.format(blocks=8)
    server = site.serve(path)
    with Client(server.address, box) as client:
        client.say("many requests in one", pipelined(client, MANY))
        cuts = every_cut(client)
        for kind, body, value in ("NOOP", None, b""), ("PUT", pair(b"drip", tag=b"t" * 32), b"w" * 384):
            data = client.request(kind, body, value).bytes()
            in_pieces(client, f"{kind} byte by byte", data, [data[n:n + 1] for n in range(len(data))])
        data = pipelined(client, MANY)
        places = sorted({0, len(data), *(site.random.randrange(len(data)) for _ in range(200))})
        in_pieces(client, "many requests in random pieces", data, [data[a:b] for a, b in zip(places, places[1:])])
        client.finished("frames in pieces")
    layout.same_image("after frames in pieces", path, box)
    return f"{client.replies} replies: {2 * MANY} requests sent together, {cuts} pairs of frames cut at every byte, 2 frames byte by byte"


CLOSERS = {"a wrong signature": lambda client: client.request("NOOP", key=b"wrong").bytes(), "another first byte": lambda client: b"G",
           "a message over its limit": lambda client: b"\x46\0\0\x20\1\0\0\0\0", "a value over its limit": lambda client: b"\x46\0\0\0\1\0\0\4\1",
           "another authType": lambda client: client.request("NOOP").at(f4=3).bytes()}


def closing(site):
    """A request that closes amid others: those before it are done and answered, the closing reply arrives and no reset that could overtake it, those
    behind it are not done."""
    path, box = site.format(blocks=8)
    server = site.serve(path)
    for how, closer in CLOSERS.items():
        for behind in 0, 1, 60, 3000:
            with Client(server.address, box) as client:
                before = pipelined(client, 20)
                bad = closer(client)
                after = client.request("PUT", pair(b"behind", b"1", force=1), b"must not be kept").bytes()
                reply = client.say(f"{how}, {behind} requests behind it", before + bad + after * behind)
                same(f"code of {how}", code_of(reply), 2 if "signature" in how else 20)
                hold(f"reset after {how}, {behind} requests behind it", not client.peer.reset)
            layout.same_image(f"after {how}", path, box)
    with Client(server.address, box) as client:
        same("code of a NOOP afterwards", client.ask("NOOP"), 1)
    return f"{len(CLOSERS)} closing requests behind 20 others and before 0, 1, 60 and 3000: all replies and the image are the model's"


def cut_security(site):
    """A key that SECURITY takes away amid a pipeline: the next request with it closes, by the model."""
    path, box = site.format()
    server = site.serve(path)
    with Client(server.address, box) as client:
        table = messages.security_tree(messages.acl_tree(1, b"new key", messages.scope_tree([0, 1, 2, 8])))
        asked = [client.request("PUT", pair(b"a"), b"before"), client.request("SECURITY", table), client.request("PUT", pair(b"b"), b"after")]
        reply = client.say("PUT, SECURITY, PUT in one", b"".join(request.bytes() for request in asked))
        same("code of the old key", code_of(reply), 2)
    layout.same_image("after SECURITY amid a pipeline", path, box)
    with Client(server.address, box, key=b"new key") as client:
        same("code with the new key", client.ask("GET", pair(b"a")), 1)
        same("code of what came with the old key", client.ask("GET", pair(b"b")), 7)
    return "PUT, SECURITY and a PUT with the old key in one send, then the new key: replies and image are the model's"


TESTS = [frames, closing, cut_security]
