"""Change request 5: fields sent twice. The last number, flag, enum or bytes value counts, embedded messages are merged, each occurrence decodes by itself."""
import model
from messages import AUTH, GETLOG, HEADER, KEYVALUE, RANGE, SETUP, SIGNED, Field, Fixed, acl_tree, encoded, part, scope_tree, security_tree, sub, tree
from model import Acl, Entry
from rows import (FORBIDDEN, GOOD, HEADERLESS, INVALID, KEY, MISMATCH, NEW_KEY, NOT_FOUND, NUMBER, OK, ONE_SCOPE, OTHER_CLUSTER, OUT_OF_TURN, Says, UNBUILT,
                  UNDECODED, UNREAD, UNSIGNED, ask, connection, keyed, logged, ranged, record, scope, secured, success)
from rules_fields import PLACES, UNUSED, hosts, refused_at

BOTH = [b"key0", b"key2"]
PUT, BLANK = keyed("PUT", b"A", b"w", f2=b"v", f5=b"t", f6=4), {"store": bytes(512)}


def put(**changed):
    """The entry that the PUT above leaves in an empty store, with another part of it."""
    return success(entry=Entry(**{"key": b"A", "version": b"v", "tag": b"t", "algorithm": 4, "value": b"w", **changed}))


def listed(*keys):
    return success(keys=list(keys))


# Each singular field whose last value counts: its name, a request, where it stands, contents with what each gives where it counts, and what is lent.
FIELDS = [
    ("authType", PUT, (), 4, [(1, put()), (3, UNREAD), (0, UNREAD), (-1, UNREAD), ((1 << 31) - 1, UNREAD)], BLANK),
    ("identity", PUT, AUTH, 1, [(1, put()), (2, UNSIGNED), (0, UNSIGNED)], BLANK),
    ("hmac", PUT, AUTH, 2, [(SIGNED, put()), (bytes(20), UNSIGNED), (b"", UNSIGNED), (bytes(300), UNSIGNED)], BLANK),
    ("clusterVersion", PUT, HEADER, 1, [(0, put()), (4, OTHER_CLUSTER)], BLANK),
    ("connectionID", PUT, HEADER, 3, [(NUMBER, put()), (0, OUT_OF_TURN), (-1, OUT_OF_TURN)], BLANK),
    ("sequence", GOOD["NOOP"], HEADER, 4, [(9, success(**{"field 6": 9, "last": 9})), (5, OUT_OF_TURN), (0, OUT_OF_TURN)], {"connection": connection(last=5)}),
    ("ackSequence", PUT, HEADER, 6, [(1, put()), (0, put())], BLANK),
    ("messageType", keyed("GET"), HEADER, 7, [(2, success(type=1, value=b"value of key0")), (16, success(type=15, version=b"v0", value=b"")),
                                              (30, success(type=29, parts=[])), (28, UNBUILT), (0, UNBUILT)], {}),
    ("timeout", PUT, HEADER, 9, [(-1, put()), (0, put())], BLANK),
    ("earlyExit", PUT, HEADER, 10, [(1, put()), (0, put())], BLANK),
    ("priority", PUT, HEADER, 12, [(5, put()), (9, put())], BLANK),
    ("TimeQuanta", PUT, HEADER, 13, [(7, put()), (0, put())], BLANK),
    ("newVersion", PUT, KEYVALUE, 2, [(b"new", put(version=b"new")), (b"", put(version=b"")), (b"n" * 16, put(version=b"n" * 16)), (b"n" * 17, INVALID)],
     BLANK),
    ("key", PUT, KEYVALUE, 3, [(b"B", put(key=b"B")), (b"", INVALID), (b"k" * 64, put(key=b"k" * 64)), (b"k" * 65, INVALID)], BLANK),
    ("dbVersion", keyed("PUT"), KEYVALUE, 4, [(b"v0", OK), (b"", MISMATCH), (b"v", MISMATCH), (b"v" * 17, INVALID)], {}),
    ("tag", PUT, KEYVALUE, 5, [(b"tag", put(tag=b"tag")), (b"", put(tag=b"")), (b"t" * 32, put(tag=b"t" * 32)), (b"t" * 33, INVALID)], BLANK),
    ("algorithm", PUT, KEYVALUE, 6, [(1, put(algorithm=1)), (6, put(algorithm=6))], BLANK),
    ("metadataOnly", keyed("GET"), KEYVALUE, 7, [(0, success(value=b"value of key0")), (1, success(value=b""))], {}),
    ("metadataOnly of a DELETE", GOOD["DELETE"], KEYVALUE, 7, [(0, OK), (1, INVALID)], {}),
    ("force", keyed("PUT"), KEYVALUE, 8, [(1, OK), (0, MISMATCH), (1 << 40, OK)], {}),
    ("synchronization", PUT, KEYVALUE, 9, [(1, put()), (3, put())], BLANK),
    ("startKey", ranged(), RANGE, 1, [(b"", listed(*BOTH)), (b"key0", listed(b"key2")), (b"s" * 64, listed()), (b"s" * 65, INVALID)], {}),
    ("endKey", ranged(), RANGE, 2, [(b"", listed()), (b"key2", listed(b"key0")), (b"z" * 64, listed(*BOTH)), (b"z" * 65, INVALID)], {}),
    ("startKeyInclusive", ranged(b"key0"), RANGE, 3, [(1, listed(*BOTH)), (0, listed(b"key2"))], {}),
    ("endKeyInclusive", ranged(b"a", b"key2"), RANGE, 4, [(1, listed(*BOTH)), (0, listed(b"key0"))], {}),
    ("maxReturned", ranged(), RANGE, 5, [(1, listed(b"key0")), (0, listed()), (32, listed(*BOTH)), (33, INVALID), (-1, INVALID)], {}),
    ("reverse", ranged(), RANGE, 6, [(1, listed(*BOTH[::-1])), (0, listed(*BOTH))], {}),
    ("newClusterVersion", GOOD["SETUP"], SETUP, 1, [(5, success(cluster=5)), (0, success(cluster=0)), (-1, success(cluster=-1))], {}),
]


def nested(way, items):
    """A message with these items, and those around it, as far as a way goes."""
    for number in reversed(way):
        items = [Field(number, items)]
    return items


def depths(way):
    """How far along a way a second occurrence may begin: not at commandBytes, which are not merged."""
    return range(way[:1] == (7,), len(way))


def named(content):
    return "the right digest" if content is SIGNED else f"{len(content)} bytes {content[:4].hex()}" if isinstance(content, bytes) else str(content)


def values(rows):
    for name, host, way, number, contents, lent in FIELDS:
        bare = host.at(*way, **{f"f{number}": None})
        for last, wanted in contents:
            rows.says("the last scalar or bytes value counts")
            for first, _ in contents:
                what = f"{name} {named(first)}, then {named(last)}"
                rows.row(what, wanted, bare.adding((number, first), (number, last), to=way), **lent)
                rows.row(f"{what}, an unlisted field between", wanted, bare.adding((number, first), (20, b"x"), (number, last), to=way), **lent)
                rows.row(f"{what}, three times", wanted, bare.adding((number, last), (number, first), (number, last), to=way), **lent)
                for depth in depths(way):
                    again = nested(way[depth:], tree((number, last)))
                    rows.row(f"{what}, in messages of field {way[depth]}", wanted,
                             bare.adding((number, first), to=way).adding((20, 1), *again, to=way[:depth]), **lent)
            rows.says("embedded messages are merged")
            for depth in depths(way):
                empty, alone = nested(way[depth:], []), nested(way[depth:], tree((number, last)))
                rows.row(f"{name} {named(last)}, then an empty field {way[depth]}", wanted,
                         bare.adding((number, last), to=way).adding(*empty, to=way[:depth]), **lent)
                rows.row(f"{name} {named(last)} in a second field {way[depth]}", wanted, bare.adding(*alone, to=way[:depth]), **lent)
                rows.row(f"{name} {named(last)} in a third field {way[depth]}", wanted, bare.adding(*empty, *alone, to=way[:depth]), **lent)


# What each good request gives, so that nothing of it gets lost unseen.
SHOWN = {"GET": success(key=b"key0", version=b"v0", value=b"value of key0"), "GETVERSION": success(version=b"v0"), "GETNEXT": success(key=b"key2"),
         "GETPREVIOUS": success(key=b"key0"), "GETKEYRANGE": listed(*BOTH), "PUT": success(count=3), "DELETE": success(count=1), "SETUP": success(cluster=5),
         "GETLOG": success(log=[2, 3, 4, 8]), "SECURITY": success(acls=(Acl(1, NEW_KEY, (scope({0, 8}),)),))}
MERGED = {"HMACauth": AUTH, "Header": HEADER, "Body": (7, 2), "KeyValue": KEYVALUE, "Range": RANGE, "Setup": SETUP, "GetLog": GETLOG}


def split(host, way, cut, *between):
    """A request whose message at a way comes in two, with items between them."""
    items = part(host.message, *way)
    return host.at(*way[:-1], **{f"f{way[-1]}": items[:cut]}).adding(*between, (way[-1], items[cut:]), to=way[:-1])


def messages(rows):
    rows.says("embedded messages are merged")
    for operation, host in GOOD.items():
        wanted = SHOWN.get(operation, OK)
        for kind, way in MERGED.items():
            if sub(part(host.message, *way[:-1]), way[-1]) is None:
                continue
            for cut in range(len(part(host.message, *way)) + 1):
                rows.row(f"{operation}: {cut} fields in the first {kind}, the rest in a second", wanted, split(host, way, cut))
                rows.row(f"{operation}: {cut} fields in the first {kind}, an unlisted field, the rest", wanted, split(host, way, cut, (20, b"\xff")))
            for many in 2, 60:
                rows.row(f"{operation}: {many} empty {kind} after it", wanted, host.adding(*[(way[-1], [])] * many, to=way[:-1]))
    for kind in (kind for kind in MERGED if kind in UNUSED):
        way = MERGED[kind]
        rows.row(f"NOOP: a {kind} twice", OK, UNUSED[kind].adding((way[-1], part(UNUSED[kind].message, *way)), to=way[:-1]))
    rows.row("HMACauth of identity, unlisted, of hmac", OK, GOOD["NOOP"].at(f5=tree((1, 1))).adding((5, tree((20, 1))), (5, tree((2, SIGNED)))))
    rows.row("hmac in the first HMACauth, identity in the second", OK, GOOD["NOOP"].at(f5=tree((2, SIGNED))).adding((5, tree((1, 1)))))
    rows.row("two HMACauth without identity", UNREAD, GOOD["NOOP"].at(f5=tree((2, SIGNED))).adding((5, [])))
    rows.row("two headers without a sequence", HEADERLESS, GOOD["NOOP"].at(*HEADER, f4=None).adding((1, tree((3, NUMBER))), to=(7,)))
    rows.row("two empty bodies", INVALID, GOOD["GET"].at(7, f2=[]).adding((2, []), to=(7,)))
    rows.row("3,900 empty bodies", success(count=3), GOOD["PUT"].adding(*[(2, [])] * 3900, to=(7,)))
    rows.row("1,900 empty keyValues", success(count=3), GOOD["PUT"].adding(*[(1, [])] * 1900, to=(7, 2)))
    rows.row("keyValue in one body, range in the next", listed(*BOTH), GOOD["GETKEYRANGE"].at(7, f2=tree((1, tree((3, b"k" * 65))))).adding(
        (2, sub(part(GOOD["GETKEYRANGE"].message, 7), 2)), to=(7,)))
    rows.says("merged messages: repeated fields inside them follow one another")
    for first, last, wanted in (((2,), (6,), success(log=[4, 8])), ((6,), (2,), success(log=[4, 8])), ((), (1,), success(log=[3])),
                                ((1,), (), success(log=[3])), ((), (), INVALID), ((3,), (2,), INVALID), ((2,), (3,), INVALID), ((7,), (2,), NOT_FOUND),
                                ((2,), (7,), NOT_FOUND), ((0, 1), (1, 2, 6), success(log=[2, 3, 4, 8])), ((8,), (2,), UNDECODED), ((2,), (8,), UNDECODED)):
        log = tree((6, tree(*((1, kind) for kind in last))))
        rows.row(f"types {first}, then {last} in a second GetLog", wanted, logged(*first).adding(*log, to=(7, 2)))
        rows.row(f"types {first}, then {last} in a second body", wanted, logged(*first).adding((2, log), to=(7,)))
        rows.row(f"types {first}, then {last} in a third body", wanted, logged(*first).adding((2, []), (20, 1), (2, log), to=(7,)))


# Contents that don't decode, by the form of a listed field.
WRONG = {"i": (1 << 31, -(1 << 31) - 1, (1 << 32) + 1, b""), "s": (b"", Fixed(bytes(8))), "f": (b"", Fixed(bytes(4))), "b": (1, Fixed(bytes(4))),
         "o": (1, Fixed(bytes(8)))}
UNNAMED = {"Header": (0, 2, 4, 10, -1, 1 << 31, b"\5"), "KeyValue": (0, 7, -1, 1 << 31, b"\1"), "GetLog": (8, -1, 1 << 32, b"\1")}
CUT = (b"\x08", b"\xa2\x01\x05ab", b"\xa0\x01\x80", b"\0\0", b"\xa3\x01", b"\xa0\x81\x80\x80\x80\x80\x80\x80\x80\x80\x00\x01")


def wrong_for(kind, form):
    if isinstance(form, set):
        return UNNAMED[kind]
    return WRONG.get(form) or (*CUT, 1, Fixed(bytes(4)))


def decodes(rows):
    rows.says("each occurrence must still decode")
    for kind in PLACES:
        for number, form in model.LISTED[kind].items():
            for operation, host, way in hosts(kind):
                there = sub(part(host.message, *way), number)
                good = there if there is not None else {"i": 1, "s": 0, "f": 0}.get(form, b"") if isinstance(form, str) else min(form)
                for bad in () if form == "r" else wrong_for(kind, form):
                    name = f"{kind} {number} of a {operation}: {bad.hex() if isinstance(bad, bytes) else bad}"
                    rows.row(f"{name} after it", refused_at(kind), host.at(*way, **{f"f{number}": good}).adding((number, bad), to=way))
                    rows.row(f"{name} before it", refused_at(kind), host.at(*way, **{f"f{number}": bad}).adding((number, good), to=way))
    cut = encoded(part(GOOD["NOOP"].message, *HEADER))
    for at in (1, 3, 5):
        rows.row(f"a header cut after {at} bytes, the rest in a second", UNDECODED, GOOD["NOOP"].at(7, f1=cut[:at]).adding((1, cut[at:]), to=(7,)))
    auth = encoded(tree((1, 1), (2, model.hmac_of(KEY, encoded(sub(GOOD["NOOP"].message, 7))))))
    rows.row("an HMACauth cut in its hmac, the rest in a second", UNREAD, GOOD["NOOP"].at(f5=auth[:9]).adding((5, auth[9:])))
    rows.says("any refused-if-present field stays refused")
    for kind, number in ((kind, number) for kind in PLACES for number, form in model.LISTED[kind].items() if form == "r"):
        for operation, host, way in hosts(kind):
            for content in 0, b"", Fixed(bytes(4)):
                refused = nested(way[-1:], tree((number, content)))
                rows.row(f"{kind} {number} of a {operation} in the first of two", UNDECODED, host.at(*way[:-1], **{f"f{way[-1]}": None}).adding(
                    *refused, (way[-1], part(host.message, *way)), to=way[:-1]))
                rows.row(f"{kind} {number} of a {operation} in the last of two", UNDECODED, host.adding(*refused, to=way[:-1]))
                rows.row(f"{kind} {number} of a {operation} in the second of three", UNDECODED, host.adding(*refused, (way[-1], []), to=way[:-1]))


# A second content of each field inside Security that may come once.
ONCE = {("ACL", 1): (1, 2), ("ACL", 2): (NEW_KEY, b""), ("ACL", 3): (1, 2), ("Scope", 1): (0, 1), ("Scope", 2): (b"", b"x"), ("Scope", 4): (0, 1)}


def security(rows):
    rows.says("Security sent twice stays refused")
    whole = sub(part(GOOD["SECURITY"].message, 7, 2), 7)
    other = sub(security_tree(acl_tree(2, NEW_KEY, ONE_SCOPE)), 7)
    for operation, host in {**GOOD, "PEER2PEERPUSH": ask(28)}.items():
        bare, once = host.at(7, 2, f7=None), UNBUILT if operation == "PEER2PEERPUSH" else SHOWN.get(operation, OK)
        for name, first, last in ("the same", whole, whole), ("empty, then whole", [], whole), ("whole, then empty", whole, []), ("both empty", [], []), \
                ("two ACLs apart", whole, other):
            for between in (), tree((20, 1)), tree((3, [])):
                rows.row(f"{operation}: {name}, {len(between)} fields between", UNDECODED, bare.adding((7, first), *between, (7, last), to=(7, 2)))
            for bodies in [], tree((2, [])), tree((2, tree((1, [])))), tree((20, b""), (3, b"")):
                rows.row(f"{operation}: {name}, in two bodies, {len(bodies)} fields between", UNDECODED,
                         bare.adding((7, first), to=(7, 2)).adding(*bodies, (2, tree((7, last))), to=(7,)))
        rows.row(f"{operation}: in three bodies", UNDECODED, bare.adding(*[(2, tree((7, [])))] * 3, to=(7,)))
        for place in "first", "last":
            bodies = [(2, tree((7, whole))), (2, part(bare.message, 7, 2))]
            rows.row(f"{operation}: once, in the {place} of two bodies", once,
                     bare.at(7, f2=None).adding(*(bodies if place == "first" else bodies[::-1]), to=(7,)))
    rows.row("SECURITY without it in two bodies", INVALID, GOOD["SECURITY"].at(7, f2=[]).adding((2, []), to=(7,)))
    rows.says("a second singular field inside Security stays refused")
    for (kind, number), contents in ONCE.items():
        for operation, host, way in hosts(kind):
            for first in contents:
                for last in contents:
                    rows.row(f"{kind} {number} of a {operation} {named(first)}, then {named(last)}", UNDECODED,
                             host.at(*way, **{f"f{number}": first}).adding((number, last), to=way))
    rows.says("a repeated field inside Security is not sent twice by that")
    rows.row("two equal ACLs but for the identity", success(acls=tuple(Acl(n, NEW_KEY, (scope({0, 8}),)) for n in (1, 2))),
             secured(acl_tree(1, NEW_KEY, ONE_SCOPE), acl_tree(2, NEW_KEY, ONE_SCOPE)))
    rows.row("a scope twice", success(acls=(Acl(1, NEW_KEY, (scope({0}),) * 2),)), secured(acl_tree(1, NEW_KEY, scope_tree([0]), scope_tree([0]))))


def commands(rows):
    rows.says("commandBytes twice: the last count, they alone are signed and decoded; earlier ones are not looked into")
    command, other = (sub(GOOD[operation].message, 7) for operation in ("PUT", "GET"))
    bare = GOOD["PUT"].at(f7=None)
    for name, first in (("nothing", b""), ("a cut field", b"\x08"), ("bytes", b"\xff" * 300), ("batchID", tree((1, tree((14, 1))))), ("a GET", other),
                        ("itself", command), ("Security twice", tree((2, tree((7, []), (7, [])))))):
        rows.row(f"{name}, then a PUT", success(count=3, type=3), bare.adding((7, first), (7, command)))
        rows.row(f"{name} twice, then a PUT", success(count=3, type=3), bare.adding((7, first), (20, 1), (7, first), (6, b""), (7, command)))
        rows.row(f"{name} before HMACauth, then a PUT", success(count=3, type=3), bare.at(f5=None).adding((7, first), (5, sub(bare.message, 5)), (7, command)))
    get = bare.valued(b"")
    rows.row("a PUT, then a GET", success(value=b"value of key0", type=1), get.adding((7, command), (7, other)))
    nothing = Says(6, 4, {"field 6": None, "type": -1})
    rows.row("a PUT, then nothing", nothing, get.adding((7, command), (7, b"")))
    rows.row("a PUT, then what doesn't decode", UNDECODED, get.adding((7, command), (7, b"\x08")))
    both = encoded(command) + encoded(other)
    for name, text in ("the first", encoded(command)), ("both", both), ("nothing", b""):
        rows.row(f"a PUT, then a GET, signed over {name}", UNSIGNED, get.adding((7, command), (7, other)).at(*AUTH, f2=model.hmac_of(KEY, text)))
    halves = [tree((1, sub(command, 1))), tree((2, sub(command, 2)))]
    rows.row("a header, then a body", nothing, bare.adding(*((7, half) for half in halves)))
    rows.row("a body, then a header", INVALID, bare.valued(b"").adding(*((7, half) for half in halves[::-1])).at(*AUTH, f2=model.hmac_of(
        KEY, encoded(halves[0]))))
    rows.row("a command cut in two, signed over the whole", UNSIGNED, bare.adding((7, encoded(command)[:9]), (7, encoded(command)[9:])).at(
        *AUTH, f2=model.hmac_of(KEY, encoded(command))))
    rows.says("Message 6 and Command 3 may repeat: their contents are not looked into")
    for contents in (b"", b""), (b"\x08", b"\xff\xff"), (b"\x0b", b"", bytes(9)), (b"\xff" * 2000, b"\xff" * 2000):
        rows.row(f"Message 6 with {[len(c) for c in contents]} bytes", success(count=3), GOOD["PUT"].adding(*((6, content) for content in contents)))
        rows.row(f"Command 3 with {[len(c) for c in contents]} bytes", success(count=3), GOOD["PUT"].adding(*((3, content) for content in contents), to=(7,)))
    rows.says("HMACauth merged: the identity that counts is signed for, judged and answered")
    two = record(Acl(1, KEY, (scope(),)), Acl(2, KEY, (scope({1}),)))
    rows.row("identity 1, then 2, who may not read", FORBIDDEN, GOOD["GET"].adding((1, 2), to=AUTH), record=two)
    rows.row("identity 2, then 1", success(value=b"value of key0"), GOOD["GET"].at(*AUTH, f1=2).adding((5, tree((1, 1)))), record=two)
    rows.says("a sequence that counts is the one that is accepted")
    rows.session("sequence 9, then 3 on one connection, and then 3, 4 and 4",
                 [GOOD["NOOP"].at(*HEADER, f4=9).adding((4, 3), to=HEADER), *(ask("NOOP", sequence=n) for n in (3, 4, 4))],
                 [success(last=3), OUT_OF_TURN, success(last=4), OUT_OF_TURN], as_is=True)
