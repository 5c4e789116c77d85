"""Change request 2: which keys GETNEXT, GETPREVIOUS and GETKEYRANGE come upon, and who may ask at all.

The keys of two tenants stand by turns in one store: the hour, then whose they are. Tenant 1's scope has "a" at 3, tenant 2's "b" at 3.
"""
import model
from messages import AUTH, acl_tree, scope_tree
from model import Acl, Entry
from rows import (ALL, CONNECTION, FORBIDDEN, INVALID, KEY, LEAST, NOT_FOUND, OK, connection, keyed, ranged, record, scope, scoped, secured, success)

READ, WRITE, DELETE, RANGE, SECURITY = model.READ, model.WRITE, model.DELETE, model.RANGE, model.SECURITY
PLAIN, PROTECTED = CONNECTION, connection(protected=1)

ONES, TWOS = [b"01/a", b"02/a", b"03/a", b"05/a"], [b"01/b", b"02/b", b"04/b", b"05/b"]
STORED = sorted(ONES + TWOS + [b"03", b"03/", b"03/c", b"04/Ab"])
OWN = {1: ONES, 2: TWOS}
TENANTS = record(*(Acl(n, KEY, (scope({READ, RANGE}, 3, value),)) for n, value in ((1, b"a"), (2, b"b"))))


def entry(key):
    """An entry whose parts tell whose it is."""
    return Entry(key, b"v" + key[-8:], b"t" + key[-8:], 1 + len(key) % 6, b"value of " + key)


def stored(keys, blocks=None):
    return model.store_of(map(entry, keys), (blocks or len(keys)) * model.BLOCK)


STORE = stored(STORED, 16)


def by(made, identity):
    return made.at(*AUTH, f1=identity)


def shown(key):
    """What GETNEXT and GETPREVIOUS answer where they show this key, or none."""
    if key is None:
        return NOT_FOUND
    its = entry(key)
    return success(key=key, version=its.version, tag=its.tag, algorithm=its.algorithm, value=its.value, parts=[1])


def listed(keys):
    return success(keys=keys, parts=[2], value=b"")


def each(rows, what, after, before, keys, **lent):
    """The three, asked over all keys: what GETNEXT shows of those above the least, GETPREVIOUS of those below the greatest, and all that GETKEYRANGE lists."""
    rows.row(f"GETNEXT, {what}", after if after in (FORBIDDEN, INVALID) else shown(after), keyed("GETNEXT", b"\0"), **lent)
    rows.row(f"GETPREVIOUS, {what}", before if before in (FORBIDDEN, INVALID) else shown(before), keyed("GETPREVIOUS", b"\xff" * 64), **lent)
    for reverse in 0, 1:
        wanted = keys if keys in (FORBIDDEN, INVALID) else listed(keys[::-1] if reverse else keys)
        rows.row(f"GETKEYRANGE, reverse {reverse}, {what}", wanted, ranged(b"", b"\xff" * 64, f6=reverse), **lent)


# Asked with: a key below all, above all, each stored one, and others between.
ASKED = [b"\0", b"0", b"01", b"01/a\0", b"01/b\0", b"02/", b"02/aa", b"03/b", b"04", b"04/a", b"04/b\0", b"05/aa", b"05/b\0", b"9", b"\xff" * 64, *STORED]


def neighbours(rows):
    rows.says("GETNEXT and GETPREVIOUS now give the nearest key on that side that a usable READ scope fits, NOT_FOUND if none")
    for identity, own in OWN.items():
        for key in ASKED:
            after, before = min((k for k in own if k > key), default=None), max((k for k in own if k < key), default=None)
            for operation, found in ("GETNEXT", after), ("GETPREVIOUS", before):
                rows.row(f"{operation} of {key[:8]!r} by tenant {identity}", shown(found), by(keyed(operation, key), identity), store=STORE, record=TENANTS)
    rows.row("past the last of one's own", NOT_FOUND, keyed("GETNEXT", b"05/a"), store=STORE, record=TENANTS)
    rows.row("before the first of one's own", NOT_FOUND, by(keyed("GETPREVIOUS", b"01/b"), 2), store=STORE, record=TENANTS)
    rows.row("metadata only", success(key=b"02/a", version=b"v02/a", value=b""), keyed("GETNEXT", b"01/b", f7=1), store=STORE, record=TENANTS)
    for operation, key in ("GETNEXT", b"\0"), ("GETPREVIOUS", b"\xff"):
        rows.row(f"{operation}, nothing is stored", NOT_FOUND, keyed(operation, key), store=bytes(1024), record=TENANTS)
        rows.row(f"{operation}, none of those stored fits", NOT_FOUND, keyed(operation, key), store=stored(TWOS), record=TENANTS)
    rows.says("GETNEXT, GETPREVIOUS: the asked key need not exist, nor fit; GET and GETVERSION of it are judged by it as before")
    for key, after, before in ((b"03/b", b"05/a", b"03/a"), (b"02/b", b"03/a", b"02/a"), (b"03", b"03/a", b"02/a"), (b"02", b"02/a", b"01/a"),
                               (b"9", None, b"05/a"), (b"\0", b"01/a", None)):
        rows.row(f"GETNEXT of {key!r}", shown(after), keyed("GETNEXT", key), store=STORE, record=TENANTS)
        rows.row(f"GETPREVIOUS of {key!r}", shown(before), keyed("GETPREVIOUS", key), store=STORE, record=TENANTS)
        for operation in "GET", "GETVERSION":
            rows.row(f"{operation} of {key!r}", FORBIDDEN, keyed(operation, key), store=STORE, record=TENANTS)
    rows.says("GETNEXT and GETPREVIOUS: the nearest, however many stand before it that don't fit")
    keys = [b"k%03d" % n for n in range(128)]
    for near in 1, 2, 10, 100, 126:
        for others in (0,), (0, 1), (0, 1, 5):  # the fitting keys, counted from `near` on
            fit = [near + n for n in others if near + n < 128]
            after = model.store_of([Entry(key, value=b"mine" if n in fit else b"") for n, key in enumerate(marked(keys, fit))], 65536)
            rows.row(f"GETNEXT, {near} don't fit before {len(fit)} that do", success(key=marked(keys, fit)[near], value=b"mine"),
                     keyed("GETNEXT", b"\0"), store=after, record=MARKED)
            back = [127 - n for n in fit]
            before = model.store_of([Entry(key, value=b"mine" if n in back else b"") for n, key in enumerate(marked(keys, back))], 65536)
            rows.row(f"GETPREVIOUS, {near} don't fit before {len(fit)} that do", success(key=marked(keys, back)[127 - near], value=b"mine"),
                     keyed("GETPREVIOUS", b"\xff"), store=before, record=MARKED)
    none = model.store_of(map(Entry, marked(keys, ())), 65536)
    rows.row("GETNEXT, none of 128 fits", NOT_FOUND, keyed("GETNEXT", b"\0"), store=none, record=MARKED)
    rows.row("GETPREVIOUS, none of 128 fits", NOT_FOUND, keyed("GETPREVIOUS", b"\xff"), store=none, record=MARKED)


# Keys with a mark at 4, and a scope that fits the mark.
MARKED = scoped(scope({READ, RANGE}, 4, b"+"))


def marked(keys, which):
    return [key + (b"+" if n in which else b"-") for n, key in enumerate(keys)]


def ranges(rows):
    rows.says("GETKEYRANGE lists only keys that a usable RANGE scope fits, and maxReturned counts after that")
    for identity, own in OWN.items():
        for start in b"", b"01/a", b"02/b", b"03", b"05/b":
            for end in b"", b"02/a", b"03/c", b"05/a", b"\xff":
                for flags in range(8):
                    low, high, back = flags & 1, flags >> 1 & 1, flags >> 2
                    inside = [k for k in own if (k > start or low and k == start) and (k < end or high and k == end)]
                    for most in None, 1, 2:
                        rows.row(f"{start!r} to {end!r}, flags {low}{high}{back}, maxReturned {most}, by tenant {identity}",
                                 listed((inside[::-1] if back else inside)[:32 if most is None else most]),
                                 by(ranged(start, end, f3=low, f4=high, f5=most, f6=back), identity), store=STORE, record=TENANTS)
    ten = [b"k%02d" % n for n in range(30)]
    middle = marked(ten, range(10, 20))
    middle_record = scoped(scope({RANGE}, 3, b"+"))
    for most in 0, 1, 2, 9, 10, 11, 32, None:
        many = 32 if most is None else most
        rows.row(f"the first ten don't fit, ten do, ten don't; maxReturned {most}", listed(middle[10:20][:many]), ranged(b"", b"z", f5=most),
                 store=stored(middle), record=middle_record)
        rows.row(f"the same, reverse, maxReturned {most}", listed(middle[19:9:-1][:many]), ranged(b"", b"z", f5=most, f6=1), store=stored(middle),
                 record=middle_record)
    keys = marked([b"k%03d" % n for n in range(128)], range(3, 128, 4))
    fit = [key for key in keys if key.endswith(b"+")]
    for most in None, 0, 1, 2, 31, 32:
        many = 32 if most is None else most
        rows.row(f"every fourth of 128 fits, maxReturned {most}", listed(fit[:many]), ranged(b"", b"z", f5=most), store=stored(keys), record=MARKED)
        rows.row(f"every fourth of 128 fits, reverse, maxReturned {most}", listed(fit[::-1][:many]), ranged(b"", b"z", f5=most, f6=1), store=stored(keys),
                 record=MARKED)
    keys = marked([b"k%03d" % n for n in range(128)], range(0, 128, 2))
    fit = [key for key in keys if key.endswith(b"+")]
    rows.row("64 of 128 fit: the first 32", listed(fit[:32]), ranged(b"", b"z"), store=stored(keys), record=MARKED)
    rows.row("64 of 128 fit: the last 32, reverse", listed(fit[:31:-1]), ranged(b"", b"z", f6=1), store=stored(keys), record=MARKED)
    long = [bytes([n]) + b"k" * 61 + (b"+1" if n % 4 == 3 else b"-1") for n in range(128)]
    rows.row("32 keys of 64, every fourth", listed(long[3::4]), by(ranged(b"", b"\xff"), LEAST), store=model.store_of(map(Entry, long), 65536),
             record=record(Acl(LEAST, KEY, (scope({RANGE}, 62, b"+"),))))
    rows.says("GETKEYRANGE: none fits: SUCCESS with the empty range; maxReturned 0 likewise")
    for reverse in 0, 1:
        for what, lent in (("none of those stored fits", {"store": stored(TWOS)}), ("nothing is stored", {"store": bytes(1024)})):
            rows.row(f"{what}, reverse {reverse}", listed([]), ranged(b"", b"\xff", f6=reverse), record=TENANTS, **lent)
        rows.row(f"maxReturned 0, reverse {reverse}", listed([]), ranged(b"", b"\xff", f5=0, f6=reverse), store=STORE, record=TENANTS)
        rows.row(f"only others between, reverse {reverse}", listed([]), ranged(b"03/a", b"05/a", f6=reverse), store=STORE, record=TENANTS)
        rows.row(f"start above end, reverse {reverse}", listed([]), ranged(b"05/b", b"01/a", f3=1, f4=1, f6=reverse), store=STORE, record=TENANTS)
    for key, own in (b"02/a", True), (b"02/b", False):
        for low, high in (0, 0), (0, 1), (1, 0), (1, 1):
            rows.row(f"{key!r} to itself, flags {low}, {high}", listed([key] * (own and low & high)), ranged(key, key, f3=low, f4=high), store=STORE,
                     record=TENANTS)
    rows.says("GETKEYRANGE: startKey and endKey are not held against scopes")
    a, b = scope({RANGE}, 0, b"a"), scope({RANGE}, 0, b"b")
    for scopes, start, end, keys in (((a, b), b"a1", b"b1", [b"a2", b"b0"]), ((a,), b"a1", b"b1", [b"a2"]), ((b,), b"a1", b"b1", [b"b0"]),
                                     ((a, b), b"b1", b"a1", []), ((a, b), b"", b"b1", [b"a1", b"a2", b"b0"]), ((a, b), b"a1", b"", []),
                                     ((scope({RANGE}),), b"", b"", []), ((a, b), b"c", b"d", []), ((a, b), b"aa", b"z", [b"b0", b"b1"]),
                                     ((scope({RANGE}, 0, b"none"),), b"a", b"z", []), ((scope({RANGE}),), b"", b"z", [b"a1", b"a2", b"b0", b"b1", b"c1"])):
        rows.row(f"{start!r} to {end!r}, scopes {[s.value for s in scopes]}", listed(keys), ranged(start, end), record=scoped(*scopes),
                 store=stored([b"a1", b"a2", b"b0", b"b1", b"c1"]))


def one_scope(rows):
    rows.says("a usable READ scope fits; a usable RANGE scope fits: one single scope holds the permission, allows the connection and fits the key shown")
    keys = [b"a1", b"b1", b"c1"]
    store = stored(keys)
    for what, scopes, after, before, found in (
            ("all by one scope", (scope({READ, RANGE}),), b"a1", b"c1", keys),
            ("READ without RANGE", (scope({READ}, 0, b"b"),), b"b1", b"b1", FORBIDDEN),
            ("RANGE without READ", (scope({RANGE}, 0, b"b"),), FORBIDDEN, FORBIDDEN, [b"b1"]),
            ("READ for a, RANGE for b", (scope({READ}, 0, b"a"), scope({RANGE}, 0, b"b")), b"a1", b"a1", [b"b1"]),
            ("READ for c and a, RANGE for b and c", (scope({READ}, 0, b"c"), scope({RANGE}, 0, b"c"), scope({RANGE}, 0, b"b"), scope({READ}, 0, b"a")),
             b"a1", b"c1", [b"b1", b"c1"]),
            ("the permission in one scope, the fit in another", (scope({READ, RANGE}, 0, b"x"), scope(ALL - {READ, RANGE}, 0, b"b")), None, None, []),
            ("READ fits what RANGE doesn't, and the other way", (scope({READ}, 0, b"b"), scope({RANGE}, 0, b"x")), b"b1", b"b1", []),
            ("RANGE fits what READ doesn't", (scope({RANGE}, 0, b"b"), scope({READ}, 0, b"x")), None, None, [b"b1"]),
            ("the other permissions fit all", (scope(ALL - {READ, RANGE}), scope({READ, RANGE}, 0, b"b")), b"b1", b"b1", [b"b1"]),
            ("the fourth scope fits", (scope({WRITE}), scope({READ, RANGE}, 0, b"x"), scope({DELETE}), scope({READ, RANGE}, 0, b"c")), b"c1", b"c1", [b"c1"]),
            ("two scopes fit by turns", (scope({READ, RANGE}, 0, b"c"), scope({READ, RANGE}, 0, b"a")), b"a1", b"c1", [b"a1", b"c1"])):
        each(rows, what, after, before, found, store=store, record=scoped(*scopes))
    others = record(Acl(1, KEY, (scope({READ, RANGE}, 0, b"x"),)), Acl(2, KEY, (scope(),)))
    each(rows, "another identity's scope fits", None, None, [], store=store, record=others)
    two = scoped(scope({READ, RANGE}, 0, b"x"), scope())
    each(rows, "a scope that doesn't count fits", None, None, [], store=store, record=two[:25] + b"\1" + two[26:])
    rows.says("allow the connection (TlsRequired means protected only), of the keys that are shown")
    b_by_tls = scope({READ, RANGE}, 0, b"b", True)
    for byte in 0, 1, 2, 255:
        lent = {"store": store, "connection": connection(protected=byte)}
        each(rows, f"a for all, b for protected, protected {byte}", b"a1", b"b1" if byte else b"a1", [b"a1"] + [b"b1"] * bool(byte),
             record=scoped(scope({READ, RANGE}, 0, b"a"), b_by_tls), **lent)
        each(rows, f"c for all, b for protected, protected {byte}", b"b1" if byte else b"c1", b"c1", [b"b1"] * bool(byte) + [b"c1"],
             record=scoped(b_by_tls, scope({READ, RANGE}, 0, b"c")), **lent)
        each(rows, f"the fit and TlsRequired in two scopes, protected {byte}", b"b1" if byte else None, b"b1" if byte else None, [b"b1"] * bool(byte),
             record=scoped(b_by_tls, scope({READ, RANGE}, 0, b"x")), **lent)
    for byte in 2, 255:
        data = bytearray(scoped(scope({READ, RANGE}, 0, b"b"), scope({READ, RANGE}, 0, b"c")))
        data[100] = byte
        each(rows, f"byte TlsRequired {byte}, plain", b"c1", b"c1", [b"c1"], store=store, record=bytes(data))
        each(rows, f"byte TlsRequired {byte}, protected", b"b1", b"c1", [b"b1", b"c1"], store=store, record=bytes(data), connection=PROTECTED)
    rows.says("fit the key: its value is empty, or stands in the key at exactly its offset, of the keys that are shown")
    for key, offset, value, fits in ((b"xyztest1", 3, b"test", True), (b"001test2", 3, b"test", True), (b"somethingElse", 3, b"test", False),
                                     (b"test123", 3, b"test", False), (b"1234test", 3, b"test", False), (b"xyztes", 3, b"test", False),
                                     (b"ab" * 32, 63, b"b", True), (b"ab" * 32, 64, b"b", False), (b"ab" * 32, 64, b"", True),
                                     (b"ab" * 32, 0, b"ab" * 32, True), (b"ab" * 32, 1, b"ba" * 32, False), (b"ab" * 32, 1, b"ba" * 31 + b"b", True),
                                     (b"ab" * 32, 0, b"ab" * 31 + b"ac", False), (b"a", 0, b"a", True), (b"a", 0, b"aa", False), (b"a", 1, b"a", False),
                                     (b"a", 1, b"", True), (b"a", 64, b"", True), (b"a", 0, b"a\0", False), (b"a", 1, b"\0", False), (b"a", 64, b"a", False)):
        what = f"{len(value)} bytes {value[:4]!r} at {offset} of a key of {len(key)}"
        shows = key if fits else None
        each(rows, what, shows, shows, [key] * fits, store=stored([key]), record=scoped(scope({READ, RANGE}, offset, value)))
        beside = (scope({READ, RANGE}, 0, b"\1"), scope({READ, RANGE}, 0, b"\xfe"))
        rows.row(what + ", between two that fit, GETNEXT", shown(key if fits else b"\xfe"), keyed("GETNEXT", b"\1"),
                 store=stored([b"\1", key, b"\xfe"]), record=scoped(*beside, scope({READ, RANGE}, offset, value)))
        rows.row(what + ", between two that fit, GETKEYRANGE", listed([b"\1", *[key] * fits, b"\xfe"]), ranged(b"", b"\xff"),
                 store=stored([b"\1", key, b"\xfe"]), record=scoped(*beside, scope({READ, RANGE}, offset, value)))


def allowed(rows):
    rows.says("NOT_AUTHORIZED is given for these three exactly when the identity has no scope with the permission that this connection may use")
    every = {"GETNEXT": keyed("GETNEXT", b"01/b"), "GETPREVIOUS": keyed("GETPREVIOUS", b"9"), "GETKEYRANGE": ranged(b"", b"9")}
    needs = {"GETNEXT": READ, "GETPREVIOUS": READ, "GETKEYRANGE": RANGE}
    for operation, made in every.items():
        p = needs[operation]
        for what, scopes, plain, protected in (
                ("all permissions but this", (scope(ALL - {p}),), FORBIDDEN, FORBIDDEN),
                ("this one alone", (scope({p}),), OK, OK),
                ("this one alone, TlsRequired", (scope({p}, tls=True),), FORBIDDEN, OK),
                ("this one, TlsRequired; the others for all", (scope({p}, tls=True), scope(ALL - {p})), FORBIDDEN, OK),
                ("four scopes, none with it", (scope(ALL - {p}),) * 4, FORBIDDEN, FORBIDDEN),
                ("four scopes, the last with it", (scope(ALL - {p}),) * 3 + (scope({p}),), OK, OK),
                ("four scopes, the last with it, TlsRequired", (scope(ALL - {p}),) * 3 + (scope({p}, tls=True),), FORBIDDEN, OK)):
            for where, wanted in (PLAIN, plain), (PROTECTED, protected):
                name = f"{operation}, {what}, {'plain' if where is PLAIN else 'protected'}"
                rows.row(name, wanted, made, store=STORE, record=scoped(*scopes), connection=where)
                refused, empty = wanted is FORBIDDEN, bytes(512)
                rows.row(name + ", nothing is stored", FORBIDDEN if refused else listed([]) if operation == "GETKEYRANGE" else NOT_FOUND, made, store=empty,
                         record=scoped(*scopes), connection=where)
        fits_none = scope({p}, 60, b"none")
        rows.row(f"{operation}, a scope that fits no key", listed([]) if operation == "GETKEYRANGE" else NOT_FOUND, made, store=STORE,
                 record=scoped(fits_none))
        rows.row(f"{operation}, a scope that fits no key, another TlsRequired", listed([]) if operation == "GETKEYRANGE" else NOT_FOUND, made, store=STORE,
                 record=scoped(fits_none, scope({p}, tls=True)))
    nobody, empty = scoped(scope(ALL - {READ, RANGE})), {"store": bytes(512)}
    rows.row("maxReturned 0, without RANGE", FORBIDDEN, ranged(f5=0), record=nobody)
    rows.row("start above end, without RANGE", FORBIDDEN, ranged(b"z", b"a"), record=nobody, **empty)
    rows.row("startKey and endKey empty, without RANGE", FORBIDDEN, ranged(b"", b""), record=nobody)
    rows.says("Step 8 before step 9: without the permission a body that is not well formed is INVALID_REQUEST all the same")
    for operation in "GETNEXT", "GETPREVIOUS":
        for what, made in (("no key", keyed(operation, None)), ("an empty key", keyed(operation, b"")), ("a key of 65", keyed(operation, b"k" * 65)),
                           ("a tag of 33", keyed(operation, b"k", f5=b"t" * 33)), ("a value part", keyed(operation, b"k").valued(b"x"))):
            rows.row(f"{operation}, {what}", INVALID, made, record=nobody)
            rows.row(f"{operation}, {what}, TlsRequired alone", INVALID, made, record=scoped(scope(tls=True)))
        rows.row(f"{operation}, well formed", FORBIDDEN, keyed(operation, b"k" * 64), record=nobody)
    for what, made in (("no startKey", ranged(None)), ("no endKey", ranged(b"a", None)), ("a startKey of 65", ranged(b"a" * 65)),
                       ("maxReturned 33", ranged(f5=33)), ("maxReturned -1", ranged(f5=-1)), ("a value part", ranged().valued(b"x"))):
        rows.row(f"GETKEYRANGE, {what}", INVALID, made, record=nobody)
        rows.row(f"GETKEYRANGE, {what}, TlsRequired alone", INVALID, made, record=scoped(scope(tls=True)))
    rows.row("GETKEYRANGE, well formed", FORBIDDEN, ranged(f5=32), record=nobody)


def tablets(rows):
    rows.says("A tablet asking past its last key got the next tenant's reading")
    mine = (scope({READ, WRITE, DELETE, RANGE}, 0, b"crew-a/"),)
    theirs = (scope({READ, WRITE, DELETE, RANGE}, 0, b"crew-b/"),)
    lent = {"store": bytes(4096), "record": record(Acl(1, KEY, mine), Acl(2, KEY, theirs))}

    def put(key, identity):
        return by(keyed("PUT", key, b"of " + key), identity)

    def of(key):
        return success(key=key, value=b"of " + key)
    rows.session("two tablets put by turns, and each asks past its own",
                 [put(b"crew-a/1", 1), put(b"crew-b/1", 2), put(b"crew-a/2", 1), put(b"crew-b/2", 2), put(b"crew-b/3", 1),
                  keyed("GETNEXT", b"crew-a/"), keyed("GETNEXT", b"crew-a/1"), keyed("GETNEXT", b"crew-a/2"), by(keyed("GETPREVIOUS", b"crew-b/1"), 2),
                  by(keyed("GETPREVIOUS", b"z"), 2), ranged(b"", b"\xff"), by(ranged(b"", b"\xff", f6=1), 2), by(keyed("DELETE", b"crew-b/1", f8=1), 2),
                  by(keyed("GETNEXT", b"crew-a/1"), 2), keyed("GET", b"crew-b/2")],
                 [OK, OK, OK, OK, FORBIDDEN, of(b"crew-a/1"), of(b"crew-a/2"), NOT_FOUND, NOT_FOUND, of(b"crew-b/2"), listed([b"crew-a/1", b"crew-a/2"]),
                  listed([b"crew-b/2", b"crew-b/1"]), OK, of(b"crew-b/2"), FORBIDDEN], **lent)
    every = scope_tree([SECURITY])
    moved = secured(acl_tree(1, KEY, every, scope_tree([READ, RANGE], 0, b"crew-b/")))
    rows.session("SECURITY gives a tablet the other's keys: from the next message on",
                 [keyed("GETNEXT", b"a"), ranged(b"", b"\xff"), moved, keyed("GETNEXT", b"a"), ranged(b"", b"\xff"), keyed("GETNEXT", b"crew-b/2")],
                 [of(b"crew-a/1"), listed([b"crew-a/1"]), OK, of(b"crew-b/1"), listed([b"crew-b/1", b"crew-b/2"]), NOT_FOUND],
                 store=model.store_of([Entry(key, value=b"of " + key) for key in (b"crew-a/1", b"crew-b/1", b"crew-b/2")], 2048),
                 record=record(Acl(1, KEY, (scope({SECURITY}), *mine))))
