"""Two tenants of one box, whose keys stand by turns: by next, previous and range each comes upon its own keys alone."""
import model
from client import Commands
from held import same
from program import KEY
from wire import Client, all_scope, command_of, pair, span

HOURS = b"0800", b"0830", b"0900"
TENANTS = {b"a": (2, b"tablet of a"), b"b": (3, b"tablet of b")}
OWN = frozenset({model.READ, model.WRITE, model.RANGE})


def key_of(hour, whose):
    return hour + b"/" + whose


def box_of_two():
    """The office may do all; each tenant what is its own, and b what is of the night too, over a protected connection."""
    scopes = {whose: (model.Scope(OWN, 4, b"/" + whose),) for whose in TENANTS}
    scopes[b"b"] += (model.Scope(OWN, 4, b"/night", True),)
    acls = (model.Acl(1, KEY, (all_scope(),)), *(model.Acl(*TENANTS[whose], scopes[whose]) for whose in TENANTS))
    entries = [model.Entry(key_of(hour, b"night"), value=b"of the night") for hour in HOURS]
    return model.Box(model.store_of(entries, 16 * model.BLOCK), model.record_of(model.Table(0, acls)))


def shown(client, kind, key):
    """The key that GETNEXT or GETPREVIOUS shows; None where there is none."""
    reply = command_of(client.say(f"{kind} of {key}", client.request(kind, pair(key)).bytes()))
    same(f"code of {kind} of {key}", reply[3][1], 1 if 2 in reply else 7)
    return reply[2][1][3] if 2 in reply else None


def listed(client, start, end, **given):
    reply = command_of(client.say(f"GETKEYRANGE {start} to {end}", client.request("GETKEYRANGE", span(start, end, **given)).bytes()))
    same(f"code of GETKEYRANGE {start} to {end}", reply[3][1], 1)
    return reply[2][2].get(8, [])


def walked(client, kind, key):
    """All keys that one comes upon from a key on."""
    keys = []
    while (key := shown(client, kind, key)) is not None:
        keys.append(key)
    return keys


def tenants(site):
    """Two tenants whose keys stand by turns, over plain and protected connections and by the commands: each walks, asks past its keys and lists, and comes
    upon its own alone; every reply is the model's."""
    run = Commands(site, box_of_two(), "--protected-listen", "127.0.0.1:0")
    count = 0
    for whose, (identity, key) in TENANTS.items():
        site.write(whose.decode(), key)
        with Client(run.server.address, run.box, identity, key) as client:
            for hour in HOURS:
                same("code of a PUT", client.put(key_of(hour, whose), b"of " + whose), 1)
                same("code of a PUT of another's", client.put(key_of(hour, b"x"), b"not mine"), 3)
            count += client.replies
    for whose, (identity, key) in TENANTS.items():
        for protected in False, True:
            own = sorted(key_of(hour, name) for hour in HOURS for name in [whose] + [b"night"] * (protected and whose == b"b"))
            with Client(run.server.protected if protected else run.server.address, run.box, identity, key, protected) as client:
                same(f"what {whose} walks up", walked(client, "GETNEXT", b"\0"), own)
                same(f"what {whose} walks down", walked(client, "GETPREVIOUS", b"\xff"), own[::-1])
                same("past the last", shown(client, "GETNEXT", own[-1]), None)
                same("before the first", shown(client, "GETPREVIOUS", own[0]), None)
                same("from another's", shown(client, "GETNEXT", key_of(HOURS[0], b"~")), next(k for k in own if k.startswith(HOURS[1])))
                same("all", listed(client, b"", b"\xff"), own)
                same("the last two", listed(client, b"", b"\xff", most=2, reverse=1), own[:-3:-1])
                same("the first", listed(client, b"0", b"\xff", most=1), own[:1])
                same("none of one's own", listed(client, key_of(HOURS[0], b"z"), HOURS[1]), [])
                count += client.replies
        commands(run, whose, str(identity))
    return f"{count} replies and {run.count} commands; each tenant came upon its own keys alone"


def commands(run, whose, identity):
    """The same by the commands, on the plain listener; the tenant's key is in a file of its name."""
    keys, file = [key_of(hour, whose).decode() for hour in HOURS], whose.decode()
    for printed, *words in ("".join(key + "\n" for key in keys), "range", "", "~"), (keys[-1] + "\n", "range", "", "~", "--reverse", "--max-returned", "1"), \
            ("", "range", "0800/c", "0830/"), ("of " + file, "next", "0830/~", "--raw"), ("of " + file, "previous", "0830/", "--raw"):
        run.good(printed.encode(), *words, "--identity", identity, key=file)
    for code, *words in (7, "next", keys[-1]), (7, "previous", keys[0]), (3, "get", "0800/night"):
        run.refused(code, *words, "--identity", identity, key=file)


TESTS = [tenants]
