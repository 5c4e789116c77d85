"""The order of judgement, step 8 and who may."""
import dataclasses

import model
from messages import AUTH, HEADER, KEYVALUE, SECURITY, acl_tree, encoded, log_tree, scope_tree, security_tree, sub, tree
from model import Acl, Entry
from rows import (ALL, FORBIDDEN, FULL, GOOD, HEADERLESS, INVALID, KEY, KEYED, LEAST, MOST, NEW_KEY, NOT_FOUND, NUMBER, OK, ONE_SCOPE, OTHER_CLUSTER,
                  OUT_OF_TURN, Says, UNBUILT, UNDECODED, UNKNOWN_HMAC, UNREAD, UNSIGNED, ask, connection, entry, keyed, ranged, record, scope,
                  scoped, secured, success, turned)


def judgement(rows):
    rows.says("Message decodes; authType must be 1, with HMACauth, its identity and commandBytes present. Otherwise CONNECTION_TERMINATED (20) and close")
    noop = GOOD["NOOP"]
    for name, made in (("no authType", noop.at(f4=None)), ("no HMACauth", noop.at(f5=None)), ("no identity", noop.at(*AUTH, f1=None)),
                       ("no commandBytes", noop.at(f7=None)),
                       ("an empty HMACauth", noop.at(f5=[])), ("no field at all but authType", noop.at(f5=None, f7=None)), ("authType 2", noop.at(f4=2)),
                       ("authType 3", noop.at(f4=3)),
                       ("authType 0", noop.at(f4=0)), ("authType -1", noop.at(f4=-1))):
        rows.row(name, UNREAD, made)
        rows.row(name + ", protected", UNREAD, made, connection=connection(-5, 1, last=9))
    rows.says("Identity in the table and hmac right over commandBytes, 20 bytes. Otherwise HMAC_FAILURE (2) and close, the same for an unknown identity")
    right = model.hmac_of(KEY, encoded(sub(noop.message, 7)))
    for name, digest in (("absent", None), ("empty", b""), ("19 bytes", right[:19]), ("21 bytes", right + b"\0"), ("40 bytes", right * 2),
                         ("zeros", bytes(20)),
                         ("of no text", model.hmac_of(KEY, b"")), *((f"byte {n} wrong", turned(right, n, n % 8)) for n in range(20))):
        rows.row(f"hmac {name}", UNSIGNED, noop.at(*AUTH, f2=digest))
    rows.row("hmac right", OK, noop.at(*AUTH, f2=right))
    two = record(Acl(1, KEY, (scope(),)), Acl(2, b"key-of-two", (scope(),)), Acl(-3, b"k" * 64, (scope(),)))
    for identity, key, wanted in ((1, KEY, OK), (2, b"key-of-two", OK), (-3, b"k" * 64, OK), (2, KEY, UNSIGNED), (1, b"key-of-two", UNSIGNED),
                                  (3, KEY, UNSIGNED), (0, KEY, UNSIGNED),
                                  (-1, KEY, UNSIGNED), (1 << 32 | 1, KEY, UNSIGNED), (MOST, KEY, UNSIGNED), (-3, b"k" * 63, UNSIGNED),
                                  (0, bytes(64), UNSIGNED), (0, b"", UNSIGNED)):
        rows.row(f"identity {identity}, key {key[:12]!r} of {len(key)}", wanted, dataclasses.replace(noop, key=key).at(*AUTH, f1=identity), record=two)
    for length in 1, 2, 55, 56, 63, 64:
        key = bytes(range(1, length + 1))
        rows.row(f"a key of {length}", success(**{"signed with": key}), dataclasses.replace(noop, key=key), record=record(Acl(1, key, (scope(),))))
    rows.row("a key and zeros sign alike (RFC 2104)", OK, dataclasses.replace(noop, key=KEY + bytes(5)))
    rows.row("an identity past the number of ACLs", UNSIGNED, dataclasses.replace(noop, key=b"key-of-two").at(*AUTH, f1=2), record=two[:8] + b"\1" + two[9:])
    rows.says("Command decodes: else INVALID_REQUEST (16). Header, connectionID and sequence present: else HEADER_REQUIRED (6)")
    rows.row("commandBytes empty", HEADERLESS, noop.at(f7=[]))
    rows.row("no header", HEADERLESS, noop.at(7, f1=None))
    rows.row("an empty header", HEADERLESS, noop.at(7, f1=[]))
    rows.row("no connectionID", HEADERLESS, noop.at(*HEADER, f3=None))
    rows.row("no sequence", HEADERLESS, noop.at(*HEADER, f4=None))
    rows.row("no messageType", UNBUILT, noop.at(*HEADER, f7=None))
    rows.row("only connectionID and sequence", UNBUILT, noop.at(7, f1=tree((3, NUMBER), (4, 3))))
    rows.row("commandBytes as bytes that don't decode", Says(16, 3), noop.at(f7=b"\xff\xff"))
    rows.says("clusterVersion equals the device's: else VERSION_FAILURE (4)")
    for mine, its in ((0, 0), (1, 1), (-1, -1), (MOST, MOST), (LEAST, LEAST), (0, 1), (1, 0), (1, -1), (MOST, LEAST), (1, 1 + (1 << 32)), (0, 1 << 56),
                      (5, 4), (0, LEAST)):
        rows.row(f"{mine}, the device's {its}", OK if mine == its else OTHER_CLUSTER, noop.at(*HEADER, f1=mine), record=record(cluster=its))
    rows.says("connectionID equals the connection's, and sequence is above the last accepted: else 16. From here the sequence counts as accepted")
    for mine, its in ((7, 7), (0, 0), (-1, -1), (MOST, MOST), (LEAST, LEAST), (6, 7), (7, 0), (-7, 7), (7 + (1 << 32), 7), (7 + (1 << 56), 7)):
        rows.row(f"connectionID {mine}, the connection's {its}", OK if mine == its else OUT_OF_TURN, noop.at(*HEADER, f3=mine), connection=connection(its))
    for last in None, 0, 1, -1, 5, MOST, LEAST, MOST - 1, LEAST + 1, 1 << 32, -1 << 32, 255, 256:
        near = [] if last is None else [last - 1, last, last + 1]
        for n in sorted(n for n in {0, 1, -1, MOST, LEAST, *near} if LEAST <= n <= MOST):
            rows.row(f"sequence {n}, the last {last}", OK if last is None or n > last else OUT_OF_TURN, noop.at(*HEADER, f4=n),
                     connection=connection(last=last))
    unseen = bytearray(connection(last=100))
    unseen[10] = 0
    rows.row("bytes 16-23 say 100, byte 10 says none seen", OK, noop, connection=bytes(unseen))
    unseen[10:16], unseen[24:], unseen[8] = b"\xff" * 6, b"\xff" * 8, 255
    rows.row("byte 10 is 255, 8 too, what is not used is not zero", OK, noop.at(*HEADER, f4=101), connection=bytes(unseen))
    rows.row("the same, sequence 100", OUT_OF_TURN, noop.at(*HEADER, f4=100), connection=bytes(unseen))
    rows.row("the same, and closing", UNREAD, noop.at(f4=None), connection=bytes(unseen))
    for name, made, wanted in step_faults():
        for again in (1, 2):
            rows.session(f"{name}, then sequence {again}", [made, noop.at(*HEADER, f4=again)],
                         [wanted, OUT_OF_TURN if again == 1 and wanted.step >= 7 else OK],
                         as_is=True, record=READ_ALONE)
    rows.says("messageType is a request built here: else 16")
    for n in range(-3, 50):
        made = ask(n, sub(sub(GOOD.get(model.BUILT.get(n), GOOD["GET"]).message, 7), 2), b"w" if n == 4 else b"")
        rows.row(f"messageType {n}", OK if n in model.BUILT else UNBUILT, made)
    rows.says("The order of judgement")
    for n, (first, fault, wanted) in enumerate(FAULTS):
        for second, other, _ in FAULTS[n + 1:]:
            if fault is not other:
                rows.row(f"{first}, and {second}", wanted, fault(other(GOOD["SECURITY"].at(*HEADER, f4=6))),
                         record=record(Acl(1, KEY, (scope({0}),)), cluster=0),
                         connection=connection(last=5))
        rows.row(f"{first} alone", wanted, fault(GOOD["SECURITY"].at(*HEADER, f4=6)),
                 record=record(Acl(1, KEY, (scope({0, 8}),))) if wanted is not FORBIDDEN else
                 record(Acl(1, KEY, (scope({0}),))), connection=connection(last=5))


READ_ALONE = scoped(scope({0}))


def step_faults():
    """Requests with sequence 1 that fail at each step from 3 on without closing, against a table that lets identity 1 read alone."""
    yield "undecodable", GOOD["NOOP"].at(*HEADER, f14=1), UNDECODED
    yield "no connectionID", GOOD["NOOP"].at(*HEADER, f3=None), HEADERLESS
    yield "another cluster", GOOD["NOOP"].at(*HEADER, f1=4), OTHER_CLUSTER
    yield "another connection", GOOD["NOOP"].at(*HEADER, f3=8), OUT_OF_TURN
    yield "PEER2PEERPUSH", GOOD["NOOP"].at(*HEADER, f7=28), UNBUILT
    yield "a key of 65", keyed("GET", b"k" * 65), INVALID
    yield "an unknown hmacAlgorithm", secured(acl_tree(1, NEW_KEY, ONE_SCOPE, algorithm=2)), UNKNOWN_HMAC
    yield "a PUT", keyed("PUT", b"A"), FORBIDDEN
    yield "a missing key", keyed("GET", b"A"), NOT_FOUND
    yield "a success", keyed("GET"), OK


# Each fault that can be put into a SECURITY, by step; identity 1 may not SECURITY in the table that goes with them.
FAULTS = [("authType 3", lambda r: r.at(f4=3), UNREAD), ("hmac wrong", lambda r: r.at(*AUTH, f2=bytes(20)), UNSIGNED),
          ("unknown identity", lambda r: r.at(*AUTH, f1=99), UNSIGNED), ("batchID", lambda r: r.adding((14, 1), to=HEADER), UNDECODED),
          ("no connectionID", lambda r: r.at(*HEADER, f3=None), HEADERLESS), ("another cluster", lambda r: r.at(*HEADER, f1=1), OTHER_CLUSTER),
          ("another connection", lambda r: r if sub(sub(sub(r.message, 7), 1), 3) is None else r.at(*HEADER, f3=8), OUT_OF_TURN),
          ("an equal sequence", lambda r: r.at(*HEADER, f4=5), OUT_OF_TURN), ("messageType 28", lambda r: r.at(*HEADER, f7=28), UNBUILT),
          ("a value part", lambda r: r.valued(b"x"), INVALID), ("a negative offset", lambda r: r.adding((1, -1), to=SECURITY + (2, 4)), INVALID),
          ("hmacAlgorithm 2", lambda r: r.at(*SECURITY, 2, f3=2), UNKNOWN_HMAC), ("no permission", lambda r: r, FORBIDDEN)]


# ---- Step 8

def bodies(rows):
    rows.says("Its body part is present (NOOP and FLUSHALLDATA need none) and well formed: else 16")
    parts = {1: sub(sub(sub(GOOD["GET"].message, 7), 2), 1), 2: sub(sub(sub(GOOD["GETKEYRANGE"].message, 7), 2), 2), 3: tree((1, 0)),
             6: tree((1, 1)), 7: sub(sub(sub(GOOD["SECURITY"].message, 7), 2), 7)}
    for operation in GOOD:
        free = operation in ("NOOP", "FLUSHALLDATA")
        used = {**dict.fromkeys(KEYED, 1), "GETKEYRANGE": 2, "SETUP": 3, "GETLOG": 6, "SECURITY": 7}.get(operation)
        rows.row(f"{operation} with no body", OK if free else INVALID, GOOD[operation].at(7, f2=None))
        rows.row(f"{operation} with an empty body", OK if free else INVALID, GOOD[operation].at(7, f2=[]))
        rows.row(f"{operation} with the other parts alone", OK if free else INVALID,
                 GOOD[operation].at(7, f2=tree(*((n, part) for n, part in parts.items() if n != used))))
        rows.row(f"{operation} with the other parts too", OK, GOOD[operation].adding(*((n, part) for n, part in parts.items() if n != used), to=(7, 2)))
        if used:
            rows.row(f"{operation} with its part empty", OK if operation == "SETUP" else INVALID, GOOD[operation].at(7, 2, **{f"f{used}": []}))
        rows.row(f"{operation} with a value part of 1 byte", OK if operation == "PUT" else INVALID, GOOD[operation].valued(b"x"))
        rows.row(f"{operation} with a value part of 384", OK if operation == "PUT" else INVALID, GOOD[operation].valued(b"x" * 384))
    rows.says("Key 1 to 64, versions at most 16, tag at most 32, value part at most 384 on PUT and empty elsewhere, metadataOnly not true on PUT or DELETE")
    store = model.store_of([Entry(b"k" * n, b"v0") for n in (1, 2, 63, 64)], 3072)
    for operation in KEYED:
        for length in 0, 1, 2, 63, 64, 65, 66, 255, 256, 257, 320, 4000:
            good = 1 <= length <= 64
            wanted = INVALID if not good else NOT_FOUND if (operation, length) in (("GETNEXT", 64), ("GETPREVIOUS", 1)) else OK
            rows.row(f"{operation} with a key of {length}", wanted, keyed(operation, b"k" * length, f4=b"v0"), store=store)
        rows.row(f"{operation} with no key", INVALID, GOOD[operation].at(*KEYVALUE, f3=None))
        for number, what, most in (2, "newVersion", 16), (4, "dbVersion", 16), (5, "tag", 32):
            for length in 0, 1, most - 1, most, most + 1, most * 2, 256, 256 + most, 1000:
                made = keyed(operation, b"kk", b"", **{"f8": 1, f"f{number}": b"x" * length})
                rows.row(f"{operation} with a {what} of {length}", OK if length <= most else INVALID, made, store=store)
        for only in 0, 1:
            rows.row(f"{operation} with metadataOnly {only}", INVALID if only and operation in ("PUT", "DELETE") else OK,
                     GOOD[operation].at(*KEYVALUE, f7=only))
    for length in (0, 1, 255, 256, 383, 384):
        rows.row(f"PUT with a value of {length}", OK, GOOD["PUT"].valued(b"w" * length))
    for length in (385, 386, 511, 512, 640, 1024):
        rows.row(f"PUT with a value of {length}", INVALID, GOOD["PUT"].valued(b"w" * length))
    rows.says("Range keys present, 0 to 64; maxReturned 0 to 32, absent means 32")
    for length in 0, 1, 63, 64:
        rows.row(f"startKey of {length}", OK, ranged(b"a" * length))
        rows.row(f"endKey of {length}", OK, ranged(b"a", b"z" * length))
    for length in 65, 128, 256, 320:
        rows.row(f"startKey of {length}", INVALID, ranged(b"a" * length))
        rows.row(f"endKey of {length}", INVALID, ranged(b"a", b"z" * length))
    rows.row("no startKey", INVALID, ranged(None))
    rows.row("no endKey", INVALID, ranged(b"a", None))
    rows.row("neither", INVALID, ranged(None, None, f5=3))
    for most in (None, *range(0, 33)):
        rows.row(f"maxReturned {most}", success(keys=[entry(n).key for n in range(32 if most is None else most)]), ranged(f5=most), store=FULL)
        rows.row(f"maxReturned {most}, reverse", success(keys=[entry(n).key for n in range(127, 127 - (32 if most is None else most), -1)]),
                 ranged(f5=most, f6=1), store=FULL)
    for most in -2, -1, 33, 34, 64, 127, 128, 255, 256, 65536 + 5:
        rows.row(f"maxReturned {most}", INVALID, ranged(f5=most), store=FULL)
    rows.says("Parts not used are only decoded")
    long_key = keyed("GET", b"k" * 65, f2=b"v" * 99)
    for name, part in (("a key of 65", sub(sub(long_key.message, 7), 2)), ("no range keys", tree((2, tree((5, 99))))), ("an empty Security", tree((7, []))),
                       ("nine ACLs, no identities", tree((7, tree(*[(2, [])] * 9)))),
                       ("a negative offset", security_tree(acl_tree(1, b"k", scope_tree([0], -1)))),
                       ("an hmacAlgorithm of 2", security_tree(acl_tree(1, b"k", ONE_SCOPE, algorithm=2))),
                       ("permission 6", security_tree(acl_tree(1, b"k", scope_tree([6])))), ("an empty GetLog", tree((6, []))),
                       ("a GetLog of every type", log_tree(range(8)))):
        rows.row(f"NOOP with {name}", OK, ask("NOOP", part))
        rows.row(f"FLUSHALLDATA with {name}", OK, ask("FLUSHALLDATA", part))


def acl_rules(rows):
    rows.says("ACL rules: 1 to 8 ACLs, identities present and distinct, key 1 to 64, 1 to 4 scopes")
    for count in range(0, 12):
        asked = [acl_tree(n, NEW_KEY, ONE_SCOPE) for n in range(count)]
        made = tuple(Acl(n, NEW_KEY, (scope({0, 8}),)) for n in range(count))
        rows.row(f"{count} ACLs", success(acls=made) if 1 <= count <= 8 else INVALID, secured(*asked))
        rows.row(f"{count} scopes", success(acls=(Acl(1, NEW_KEY, (scope({0, 8}),) * count),)) if 1 <= count <= 4 else INVALID,
                 secured(acl_tree(1, NEW_KEY, *[ONE_SCOPE] * count)))
    for count in 16, 32, 64:
        rows.row(f"{count} ACLs", INVALID, secured(*(acl_tree(n, NEW_KEY, ONE_SCOPE) for n in range(count))))
    eight = tuple(Acl(n - 4, bytes([n + 1]) * 64, tuple(scope(ALL, 64 - m, bytes([n + 65]) * 64, m % 2 == 1) for m in range(4))) for n in range(8))
    rows.row("eight ACLs, all as large as can be", success(acls=eight, cluster=-1), secured(*(acl_tree(
        a.identity, a.key, *(scope_tree(sorted(s.permissions), s.offset, s.value, int(s.tls)) for s in a.scopes)) for a in eight), cluster=-1),
             record=record(cluster=-1))
    rows.row("an ACL without identity", INVALID, secured(acl_tree(None, NEW_KEY, ONE_SCOPE)))
    rows.row("the last without identity", INVALID, secured(acl_tree(0, NEW_KEY, ONE_SCOPE), acl_tree(None, NEW_KEY, ONE_SCOPE)))
    for ids in (1, 1), (0, 0), (-1, -1), (1, 2, 1), (1, 2, 3, 4, 5, 6, 7, 1), (MOST, 3, MOST), (LEAST, LEAST), (2, 3, 3):
        rows.row(f"identities {ids}", INVALID, secured(*(acl_tree(n, NEW_KEY, ONE_SCOPE) for n in ids)))
    for n in 1, 0, -1, MOST, LEAST:
        rows.row(f"two ACLs of identity {n}, all else different", INVALID,
                 secured(acl_tree(7, KEY, ONE_SCOPE), acl_tree(n, b"k", scope_tree([0], 1, b"x")), acl_tree(n, KEY, ONE_SCOPE, scope_tree([1], 3, b"yy", 1))))
    for ids in (1, -1), (0, 1), (MOST, LEAST), (1, 1 + (1 << 32)), (1, 1 + (1 << 56)), (-1, -2, -3, -4, 0, 1, 2, 3), (0, LEAST):
        rows.row(f"identities {ids}", success(acls=tuple(Acl(n, NEW_KEY, (scope({0, 8}),)) for n in ids)),
                 secured(*(acl_tree(n, NEW_KEY, ONE_SCOPE) for n in ids)))
    for length in 0, 1, 2, 63, 64, 65, 66, 128, 256, 257, 320, 5000:
        key = bytes(n % 255 + 1 for n in range(length))
        rows.row(f"a key of {length}", success(acls=(Acl(1, key, (scope({0, 8}),)),)) if 1 <= length <= 64 else INVALID, secured(acl_tree(1, key, ONE_SCOPE)))
    rows.row("no key", INVALID, secured(acl_tree(1, None, ONE_SCOPE)))
    rows.row("an empty Security", INVALID, secured())
    rows.row("an empty ACL", INVALID, secured([]))
    rows.says("each with 1 to 9 permissions among 0-5, 7, 8, 9")
    nine = sorted(ALL)
    for count in range(0, 20):
        for name, asked in ("different", (nine + nine + nine)[:count]), ("of READ", [0] * count):
            made = (Acl(1, NEW_KEY, (scope(asked),)),)
            rows.row(f"{count} permissions, {name}", success(acls=made) if 1 <= count <= 9 else INVALID, secured(acl_tree(1, NEW_KEY, scope_tree(asked))))
    for n in range(-2, 20):
        rows.row(f"permission {n}", success(acls=(Acl(1, NEW_KEY, (scope({n}),)),)) if n in ALL else INVALID, secured(acl_tree(1, NEW_KEY, scope_tree([n]))))
        rows.row(f"permissions 0 and {n}", success(acls=(Acl(1, NEW_KEY, (scope({0, n}),)),)) if n in ALL else INVALID,
                 secured(acl_tree(1, NEW_KEY, scope_tree([0, n]))))
    for n in 32, 33, 63, 64, 65, 255, 256, 264, 1 << 16:
        rows.row(f"permission {n}", INVALID, secured(acl_tree(1, NEW_KEY, scope_tree([8, n]))))
    rows.row("the second scope has none", INVALID, secured(acl_tree(1, NEW_KEY, ONE_SCOPE, [])))
    rows.row("a scope of the second ACL has none", INVALID, secured(acl_tree(1, NEW_KEY, ONE_SCOPE), acl_tree(2, NEW_KEY, ONE_SCOPE, tree((1, 0)))))
    rows.says("offset 0 to 64, value at most 64. Negative offsets are refused")
    for n in 0, 1, 63, 64:
        rows.row(f"offset {n}", success(acls=(Acl(1, NEW_KEY, (scope({0}, n, b"x"),)),)), secured(acl_tree(1, NEW_KEY, scope_tree([0], n, b"x"))))
        rows.row(f"a value of {n}", success(acls=(Acl(1, NEW_KEY, (scope({0}, 0, b"x" * n),)),)), secured(acl_tree(1, NEW_KEY, scope_tree([0], 0, b"x" * n))))
    for n in -1, -2, -64, 65, 66, 127, 128, 255, 256, 257, 320, 1 << 16, 1 << 32, (1 << 32) + 1, MOST, LEAST, -(1 << 32), -256:
        rows.row(f"offset {n}", INVALID, secured(acl_tree(1, NEW_KEY, scope_tree([0], n, b"x"))))
        rows.row(f"offset {n} of the last scope", INVALID, secured(acl_tree(1, NEW_KEY, ONE_SCOPE, scope_tree([0], n))))
    for n in 65, 66, 128, 256, 257, 320, 4000:
        rows.row(f"a value of {n}", INVALID, secured(acl_tree(1, NEW_KEY, scope_tree([0], 0, b"x" * n))))
    rows.says("Then an hmacAlgorithm that is present and not 1 gives NO_SUCH_HMAC_ALGORITHM (15)")
    other = acl_tree(2, NEW_KEY, ONE_SCOPE, algorithm=2)
    for name, fault in (("no key", acl_tree(1, None, ONE_SCOPE)), ("permission 6", acl_tree(1, NEW_KEY, scope_tree([6]))),
                        ("an equal identity", acl_tree(2, NEW_KEY, ONE_SCOPE))):
        rows.row(f"first hmacAlgorithm 2, then {name}", INVALID, secured(other, fault))
        rows.row(f"first {name}, then hmacAlgorithm 2", INVALID, secured(fault, other))
    rows.row("a value part, and hmacAlgorithm 2", INVALID, secured(other).valued(b"x"))
    rows.row("hmacAlgorithm 2 by who may not SECURITY", UNKNOWN_HMAC, secured(other), record=scoped(scope({0})))


# ---- Who may

def who(rows):
    rows.says("READ 0: GET, GETVERSION, GETNEXT, GETPREVIOUS. WRITE 1: PUT. DELETE 2: DELETE. RANGE 3: GETKEYRANGE. SETUP 4, SECURITY 8 likewise; "
              "GETLOG (24, permission GETLOG 7, any key)")
    needs = {"GET": 0, "GETVERSION": 0, "GETNEXT": 0, "GETPREVIOUS": 0, "PUT": 1, "DELETE": 2, "GETKEYRANGE": 3, "SETUP": 4, "GETLOG": 7,
             "SECURITY": 8, "NOOP": None, "FLUSHALLDATA": None}
    for operation, made in GOOD.items():
        for n in sorted(ALL):
            good = needs[operation] in (n, None)
            rows.row(f"{operation} with {n} alone", OK if good else FORBIDDEN, made, record=scoped(scope({n})))
            rows.row(f"{operation} with all but {n}", OK if needs[operation] != n else FORBIDDEN, made, record=scoped(scope(ALL - {n})))
    rows.says("allow the connection (TlsRequired means protected only)")
    for operation, made in GOOD.items():
        free = needs[operation] is None
        for byte in 0, 1, 2, 255:
            rows.row(f"{operation} with TlsRequired, protected {byte}", OK if byte or free else FORBIDDEN, made, record=scoped(scope(tls=True)),
                     connection=connection(protected=byte))
            rows.row(f"{operation} with another scope for plain, protected {byte}", OK, made, record=scoped(scope(tls=True), scope()),
                     connection=connection(protected=byte))
        for byte in 2, 255:
            data = bytearray(scoped(scope()))
            data[100] = byte
            rows.row(f"{operation} with byte TlsRequired {byte}, plain", OK if free else FORBIDDEN, made, record=bytes(data))
    rows.says("fit the key: its value is empty, or stands in the key at exactly its offset")
    for n, (key, fits) in enumerate(((b"xyztest1", True), (b"001test2", True), (b"somethingElse", False), (b"test123", False), (b"1234test", False))):
        for operation in KEYED:
            judged = operation not in ("GETNEXT", "GETPREVIOUS")  # these two by the key shown: rules_tenants.py
            rows.row(f"W{n + 4} {operation} of {key.decode()}", FORBIDDEN if judged and not fits else OK if operation == "PUT" else NOT_FOUND,
                     keyed(operation, key), record=scoped(scope(ALL, 3, b"test")), store=bytes(1024))
    store = model.store_of([Entry(b"ab" * 32), Entry(b"a")], 1024)
    for key, offset, value, fits in ((b"ab" * 32, 63, b"b", True), (b"ab" * 32, 64, b"b", False), (b"ab" * 32, 64, b"", True),
                                     (b"ab" * 32, 0, b"ab" * 32, True),
                                     (b"ab" * 32, 1, b"ba" * 32, False), (b"ab" * 32, 1, b"ba" * 31 + b"b", True), (b"a", 0, b"a", True),
                                     (b"a", 0, b"aa", False),
                                     (b"a", 1, b"a", False), (b"a", 1, b"", True), (b"a", 64, b"", True), (b"a", 0, b"b", False), (b"a", 0, b"a\0", False),
                                     (b"a", 1, b"\0", False),
                                     (b"ab" * 32, 62, b"ab", True), (b"ab" * 32, 62, b"abc", False), (b"ab" * 32, 63, b"ba", False), (b"a", 64, b"a", False)):
        rows.row(f"{len(value)} bytes {value[:4]!r} at {offset} of a key of {len(key)}", OK if fits else FORBIDDEN, keyed("GET", key),
                 record=scoped(scope(ALL, offset, value)), store=store)
        rows.row(f"{len(value)} bytes {value[:4]!r} at {offset} of a key of {len(key)}, the fourth scope", OK if fits else FORBIDDEN, keyed("GET", key),
                 record=scoped(scope({1}), scope({1}), scope({2}), scope(ALL, offset, value)), store=store)
    rows.says("One single scope of the identity must hold the permission, allow the connection, and fit the key")
    rows.row("permission and fit in two scopes", FORBIDDEN, GOOD["GET"], record=scoped(scope({0}, 0, b"x"), scope({1}, 0, b"key")))
    rows.row("permission and TLS in two scopes", FORBIDDEN, GOOD["GET"], record=scoped(scope({0}, tls=True), scope({1})))
    rows.row("fit and TLS in two scopes", FORBIDDEN, GOOD["GET"], record=scoped(scope({0}, 0, b"key", True), scope({0}, 0, b"x")))
    rows.row("one of four does", OK, GOOD["GET"], record=scoped(scope({0}, 0, b"x"), scope({1}), scope({0}, tls=True), scope({0}, 0, b"key")))
    rows.row("another identity's scope", FORBIDDEN, GOOD["GET"], record=record(Acl(1, KEY, (scope({1}),)), Acl(2, KEY, (scope(),))))
    rows.row("a scope that doesn't count", FORBIDDEN, GOOD["GET"], record=scoped(scope({1}), scope())[:25] + b"\1" + scoped(scope({1}), scope())[26:])
    rows.says("SETUP and SECURITY fit any key; GETLOG (24, permission GETLOG 7, any key)")
    for operation in "SETUP", "SECURITY", "GETLOG":
        rows.row(operation, OK, GOOD[operation], record=scoped(scope(ALL, 64, b"none")))
        rows.row(operation + ", TlsRequired", FORBIDDEN, GOOD[operation], record=scoped(scope(ALL, 64, b"none", True)))
