"""What was captured on one connection is worth nothing on another, nor a second time on its own."""
import layout
import model
from held import hold, same
from messages import table_tree
from program import KEY
from wire import Client, Peer, all_scope, code_of, number_of, pair, setup

CONNECTIONS = 300


def captured(client):
    """Signed requests that would change something if they were taken a second time."""
    other = model.Table(0, (model.Acl(1, KEY, (all_scope(),)), model.Acl(2, b"intruder", (all_scope(),))))
    kinds = ("PUT", pair(b"k", b"1", force=1), b"old"), ("PUT", pair(b"new", b"1"), b"v"), ("DELETE", pair(b"new", force=1), b""), ("SETUP", setup(0), b""), \
        ("SECURITY", table_tree(other), b"")
    return [(kind, client.request(kind, body, value).bytes()) for kind, body, value in kinds]


def refused(client, path, requests, how):
    """Sends what was captured; each is INVALID_REQUEST, and nothing changes."""
    before = path.read_bytes()
    for kind, data in requests:
        same(f"code of a captured {kind} {how}", code_of(client.say(f"captured {kind} {how}", data)), 16)
        same(f"image after a captured {kind} {how}", path.read_bytes(), before)
    same(f"code of a NOOP after captured requests {how}", client.ask("NOOP"), 1)


def replay(site):
    """A captured request sent again on its connection, on another, on a protected one, and to the next run of the server is INVALID_REQUEST and changes
    nothing."""
    path, box = site.format()
    server = site.serve(path, "--protected-listen", "127.0.0.1:0")
    ways = 0
    with Client(server.address, box) as first:
        requests = captured(first)
        for kind, data in requests:
            same(f"code of {kind}", code_of(first.say(kind, data)), 1)
        same("code of a PUT over what was captured", first.put(b"k", b"newer", b"2", b"1"), 1)
        refused(first, path, requests, "on its connection")
        for how, address in ("on another connection", server.address), ("on a protected connection", server.protected):
            with Client(address, box, protected=address == server.protected) as client:
                refused(client, path, requests, how)
                ways += 1
    server.end()
    with Client(site.serve(path).address, box) as client:
        refused(client, path, requests, "after the server was started again")
    layout.same_image("after captured requests", path, box)
    return f"{len(requests)} captured requests, each refused in {ways + 2} places; image unchanged"


def number(address):
    """The number of a new connection."""
    with Peer(address) as peer:
        peer.send(b"x")
        return number_of(peer.frame())


def numbers(site):
    """Numbers of connections over two runs of the server: none twice, and each of the 64 bits is now 0, now 1."""
    path, _ = site.format()
    seen = []
    for _ in "12":
        server = site.serve(path, "--protected-listen", "127.0.0.1:0")
        seen += [number(server.protected if n % 2 else server.address) for n in range(CONNECTIONS)]
        server.end()
    same("different numbers", len(set(seen)), len(seen))
    ones = [sum(number >> bit & 1 for number in seen) for bit in range(64)]
    hold(f"a bit of the numbers that is nearly always the same: {ones}", all(.35 < count / len(seen) < .65 for count in ones))
    return f"{len(seen)} connections of two runs have {len(set(seen))} numbers, each bit set in {min(ones)} to {max(ones)} of them"


TESTS = [replay, numbers]
