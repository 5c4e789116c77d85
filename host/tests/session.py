"""Every operation over TCP, good and refused, and random requests, one at a time: each reply, and the image after it, is the model's."""
import random

import layout
import model
import sessions
from held import hold, same
from messages import HEADER, acl_tree, log_tree, scope_tree, security_tree, table_tree
from program import KEY
from readings import SILENT, followed
from wire import Client, all_scope, code_of, pair, setup, span

TIMER, TABLET, GUARD = b"timer 7", b"\0tablet\xff", b"g" * 64
TABLE = model.Table(0, (
    model.Acl(1, KEY, (all_scope(),)),
    model.Acl(7, TIMER, (model.Scope(frozenset({model.WRITE, model.DELETE}), 0, b"timer/7/"), model.Scope(frozenset({model.READ}), 6, b"7/"))),
    model.Acl(-20, TABLET, (model.Scope(frozenset({model.READ, model.RANGE}), 0, b"timer/"), model.Scope(frozenset({model.GETLOG}), tls=True))),
    model.Acl(1 << 40, GUARD, (all_scope(tls=True),))))
READINGS_FILE = b"# of the session\ntemperature HDA 36.5 C\ntemperature board 98.6 F\ntemperature spare - C\nutilization EN0 0.25\nutilization EN1 -\n"
READINGS = model.readings_bytes(model.Readings((model.Reading(b"HDA", 0x42120000), model.Reading(b"board", 0x42c53333, 1), model.Reading(b"spare", SILENT)),
                                               (model.Reading(b"EN0", 0x3e800000), model.Reading(b"EN1", SILENT))))


def steps(protected):
    """Who asks what, and the code that document 01 gives, worked out by hand; the store has eight blocks and is blank. `tls` is the code of what wants a
    protected connection."""
    tls = 1 if protected else 3
    yield 1, "NOOP", None, b"", 1
    yield 1, "SECURITY", table_tree(TABLE), b"", 1
    yield from puts(tls)
    yield from looks()
    yield from neighbours(tls)
    yield from deletes()
    yield from logs(tls)
    yield 7, "SETUP", setup(5), b"", 3
    yield 1, "SETUP", setup(5), b"", 1
    yield 1, "SETUP", setup(), b"", 1
    yield 1, "SETUP", None, b"", 16
    yield 1 << 40, "SETUP", setup(-3), b"", tls
    yield 1, "SECURITY", security_tree(acl_tree(1, KEY, scope_tree([0]), algorithm=2)), b"", 15
    yield 1, "SECURITY", security_tree(acl_tree(1, KEY, scope_tree([6]))), b"", 16
    yield -20, "SECURITY", table_tree(TABLE), b"", 3
    yield 1 << 40, "SECURITY", table_tree(TABLE), b"", tls
    yield 1, 28, None, b"", 16
    yield 1, "FLUSHALLDATA", None, b"", 1


def puts(tls):
    yield 7, "PUT", pair(b"timer/7/a", b"1"), b"first", 1
    yield 7, "PUT", pair(b"timer/7/a", b"2"), b"no old version", 8
    yield 7, "PUT", pair(b"timer/7/a", b"2", b"1", b"tag", 6), b"second", 1
    yield 7, "PUT", pair(b"timer/7/a", b"3", b"x", force=1), b"w" * 384, 1
    yield 7, "PUT", pair(b"timer/8/a", b"1"), b"another's", 3
    yield 1, "PUT", pair(b"v"), b"w" * 385, 16
    yield 1, "PUT", pair(b"k" * 65), b"", 16
    yield 1, "PUT", pair(b""), b"", 16
    yield 1, "PUT", pair(b"\0" * 64, b"v" * 16, b"", b"t" * 32), bytes(range(256)), 1
    yield 1 << 40, "PUT", pair(b"guard"), b"protected only", tls
    for n in range(5 + (tls == 3)):
        yield 1, "PUT", pair(b"timer/8/%d" % n, b"%d" % n), b"value %d" % n, 1
    yield 1, "PUT", pair(b"timer/9"), b"the ninth of eight", 14
    yield 1, "PUT", pair(b"timer/8/0", b"00", b"0"), b"over the old", 1


def looks():
    yield -20, "GET", pair(b"timer/7/a"), b"", 1
    yield -20, "GET", pair(b"timer/7/a", metadata=1), b"", 1
    yield -20, "GET", pair(b"timer/7/b"), b"", 7
    yield -20, "GET", pair(b"\0" * 64), b"", 3
    yield 7, "GET", pair(b"timer/7/a"), b"", 1
    yield 7, "GET", pair(b"timer/8/1"), b"", 3
    yield 1, "GET", pair(b"\0" * 64), b"", 1
    yield 1, "GET", pair(b"a"), b"a value", 16
    yield -20, "GETVERSION", pair(b"timer/8/0"), b"", 1
    yield -20, "GETVERSION", pair(b"timer/"), b"", 7
    yield -20, "GETNEXT", pair(b"timer/7/a"), b"", 1
    yield 1, "GETNEXT", pair(b"\xff"), b"", 7
    yield 1, "GETPREVIOUS", pair(b"timer/8/0"), b"", 1
    yield 1, "GETPREVIOUS", pair(b"\0"), b"", 7
    yield -20, "GETKEYRANGE", span(b"timer/", b"timer/~"), b"", 1
    yield -20, "GETKEYRANGE", span(b"timer/", b"timer/~", most=2, reverse=1), b"", 1
    yield -20, "GETKEYRANGE", span(b"timer/7/a", b"timer/8/2", None, None), b"", 1
    yield 1, "GETKEYRANGE", span(b"", b"\xff", most=33), b"", 16


def neighbours(tls):
    """From outside one's scopes, past the last key that they fit and before the first; without the permission."""
    yield -20, "GETKEYRANGE", span(b"", b"timer/"), b"", 1
    yield -20, "GETKEYRANGE", span(b"", b"\xff", most=1), b"", 1
    yield -20, "GETNEXT", pair(b"\0"), b"", 1
    yield -20, "GETPREVIOUS", pair(b"timer/7/a"), b"", 7
    yield -20, "GETNEXT", pair(b"timer/9"), b"", 7
    yield 7, "GETNEXT", pair(b"a"), b"", 1
    yield 7, "GETNEXT", pair(b"timer/7/a"), b"", 7
    yield 7, "GETPREVIOUS", pair(b"timer/8/3"), b"", 1
    yield 7, "GETKEYRANGE", span(b"timer/7/", b"timer/7/~"), b"", 3
    yield 1 << 40, "GETNEXT", pair(b"a"), b"", tls
    yield 1 << 40, "GETPREVIOUS", pair(b"z"), b"", tls
    yield 1 << 40, "GETKEYRANGE", span(b"", b"\xff"), b"", tls
    yield 7, "GETKEYRANGE", span(b"", b"\xff", most=33), b"", 16


def deletes():
    yield 7, "DELETE", pair(b"timer/7/a"), b"", 8
    yield 7, "DELETE", pair(b"timer/7/a", old=b"3"), b"", 1
    yield 7, "DELETE", pair(b"timer/7/a", old=b"3"), b"", 7
    yield 7, "DELETE", pair(b"timer/7/a", force=1), b"", 1
    yield 7, "DELETE", pair(b"timer/8/0", force=1), b"", 3
    yield 1, "PUT", pair(b"timer/9"), b"in the room that is free", 1


def logs(tls):
    yield 1, "GETLOG", log_tree([0, 1, 2, 6]), b"", 1
    yield 1, "GETLOG", log_tree([1, 0, 1]), b"", 1
    yield -20, "GETLOG", log_tree([1]), b"", tls
    yield 7, "GETLOG", log_tree([2]), b"", 3
    yield 1, "GETLOG", log_tree([7]), b"", 7
    yield 1, "GETLOG", log_tree([1, 4]), b"", 16
    yield 1, "GETLOG", log_tree([]), b"", 16


KEYS = {1: KEY, 7: TIMER, -20: TABLET, 1 << 40: GUARD}


def in_turn(address, path, box, protected):
    """Plays the steps on one connection; gives the number of replies."""
    with Client(address, box, protected=protected, readings=READINGS) as client:
        for n, (identity, kind, body, value, code) in enumerate(steps(protected)):
            what = f"step {n}, {kind} of {identity}, {'protected' if protected else 'plain'}"
            made = client.request(kind, body, value, identity=identity, key=KEYS[identity])
            same(f"code of {what}", code_of(client.say(what, made.bytes())), code)
            layout.same_image(f"after {what}", path, box)
        wrong_headers(client)
        layout.same_image("after requests with wrong headers", path, box)
        client.finished("the steps")
    return client.replies + closings(address, path, box, protected)


def wrong_headers(client):
    for code, changes in (6, {"f3": None}), (6, {"f4": None}), (4, {"f1": 77}), (16, {"f3": client.number ^ 1}), (16, {"f4": client.sequence}), \
            (16, {"f14": 1}):
        made = client.request("PUT", pair(b"wrong"), b"never kept").at(*HEADER, **changes)
        same(f"code of a header with {changes}", code_of(client.say(f"a header with {changes}", made.bytes())), code)


def closings(address, path, box, protected):
    """Requests that close the connection, each on one of its own."""
    def turned(made):
        return made.at(5, f2=bytes(20))

    ways = [(2, lambda c: turned(c.request("NOOP")).bytes()), (2, lambda c: c.request("NOOP", identity=3).bytes()),
            (2, lambda c: c.request("NOOP", key=b"wrong").bytes()), (20, lambda c: c.request("NOOP").at(f4=2).bytes()),
            (20, lambda c: b"GET / HTTP/1.1\r\n\r\n"), (20, lambda c: b"\x46\0\0\x20\1\0\0\0\0"), (20, lambda c: b"\x46\0\0\0\0\0\0\4\1"),
            (20, lambda c: b"\x46" + bytes(8))]
    for n, (code, way) in enumerate(ways):
        with Client(address, box, protected=protected, readings=READINGS) as client:
            same(f"code of closing {n}", code_of(client.say(f"closing {n}", way(client))), code)
            hold("the model closes", client.connection.closed)
        layout.same_image(f"after closing {n}", path, box)
    return 2 * len(ways)


def session(site):
    """Every operation, good and refused, on the plain and the protected listener: replies and the image after each are the model's, codes those of document
    01."""
    count = 0
    site.write("readings", READINGS_FILE)
    for protected in False, True:
        path, box = site.format(f"{protected}.image", 8)
        server = site.serve(path, "--protected-listen", "127.0.0.1:0", "--readings", "readings")
        same("blocks that the server names", (server.used, server.blocks), (0, 8))
        with Client(server.address, box) as client:
            followed(client, "the readings", READINGS)
        count += in_turn(server.protected if protected else server.address, path, box, protected)
        server.end()
        same("blocks that the server names when it starts again", site.serve(path).used, len(model.entries_of(box.store)))
    return f"{count} replies, and the image after each, are the model's"


# ---- Random requests

def drawn_client(server, site, box):
    protected = site.r.random() < .4
    acl = site.r.choice(model.table_of(box.record).acls)
    return Client(server.protected if protected else server.address, box, acl.identity, acl.key, protected)


def drawn(random_site):
    """A request, some of them with something changed, some with bytes behind them."""
    r = random_site.r

    def data(client):
        random_site.store, random_site.record = client.box.store, client.box.record
        its = client.connection
        lent = model.connection_after(model.connect(its.number, its.protected), its)
        made = random_site.request(lent)
        made = random_site.twisted(made) if r.random() < .25 else made
        return made.bytes() + (r.choice((made.bytes(), b"\x46")) if r.random() < .1 else b"")
    return data


def played(server, path, box, random_site, count):
    """Plays random requests on three connections in turn; gives the number of replies."""
    clients = [drawn_client(server, random_site, box) for _ in range(3)]
    data, replies = drawn(random_site), 0
    for n in range(count):
        place = random_site.turn() % 3
        client = clients[place]
        client.say(f"random request {n}", data(client))
        layout.same_image(f"after random request {n}", path, box)
        if client.connection.closed or client.unread:
            replies += client.replies
            client.peer.close()
            clients[place] = drawn_client(server, random_site, box)
    for client in clients:
        client.finished("random requests")
    return replies + sum(client.replies for client in clients)


def random_requests(site):
    """Random requests of conformance/sessions.py on several connections, from random stores and tables: replies and the image after each are the model's."""
    count = 0
    rounds = 120 if site.thorough else 12
    for n in range(rounds):
        random_site = sessions.Site(random.Random(site.random.random()))
        box = model.Box(random_site.store, random_site.record)
        path = site.image(box)
        server = site.serve(path, "--protected-listen", "127.0.0.1:0")
        count += played(server, path, box, random_site, 40)
        server.end()
    return f"{count} replies from {rounds} random boxes, and the image after each, are the model's"


TESTS = [session, random_requests]
