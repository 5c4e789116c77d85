"""What each operation does, replies, the readings W1 to W11, and what is tempting and wrong."""
import dataclasses

import model
from messages import AUTH, HEADER, KEYVALUE, Fixed, acl_tree, tree
from model import Acl, Entry, frame, message
from rows import (ALL, ENTRIES, FORBIDDEN, FULL, GOOD, HEADERLESS, KEY, LEAST, MISMATCH, MOST, NEW_KEY, NOT_FOUND, NO_SPACE, OK, ONE_SCOPE,
                  OTHER_CLUSTER, OUT_OF_TURN, Says, UNDECODED, UNREAD, UNSIGNED, ask, connection, entry, keyed, ranged, record, scope, scoped,
                  secured, success)


def operations(rows):
    rows.says("PUT: without force, dbVersion must equal the stored version, or be empty for a new key; else VERSION_MISMATCH (8)")
    for stored, asked in ((b"v0", b"v0"), (b"v0", b"v1"), (b"v0", b""), (b"v0", None), (b"v0", b"v"), (b"v0", b"v0\0"), (b"", b""), (b"", None), (b"", b"\0"),
                          (b"x" * 16, b"x" * 16),
                          (b"x" * 16, b"x" * 15), (b"x" * 15, b"x" * 16), (b"x" * 16, b"x" * 15 + b"y"), (b"\0", b""), (b"\0", b"\0")):
        for force in None, 0, 1:
            good = force == 1 or (asked or b"") == stored
            store = model.store_of([Entry(b"A", stored, b"t", 3, b"old")], 512)
            name = f"stored {stored!r}, dbVersion {asked!r}, force {force}"
            rows.row("PUT " + name, success(entry=Entry(b"A", b"n", b"", 0, b"new")) if good else MISMATCH,
                     keyed("PUT", b"A", b"new", f2=b"n", f4=asked, f8=force), store=store)
            rows.row("DELETE " + name, success(count=0, parts=[1], fields=[]) if good else MISMATCH, keyed("DELETE", b"A", f4=asked, f8=force), store=store)
    for asked, force, wanted in ((None, None, OK), (b"", None, OK), (b"v", None, MISMATCH), (b"v", 1, OK), (b"", 1, OK), (b"\0", 0, MISMATCH)):
        rows.row(f"PUT of a new key, dbVersion {asked!r}, force {force}", wanted, keyed("PUT", b"new", b"w", f4=asked, f8=force))
    rows.says("A new key that passes this, with no blank block: NO_SPACE (14), and only then; room freed by DELETE is used again")
    new, over, gone = keyed("PUT", b"new", b"w"), keyed("PUT", b"key005", b"w", f4=b"5"), keyed("DELETE", b"key005", f4=b"5")
    rows.row("a new key, 128 of 128 used", NO_SPACE, new, store=FULL)
    rows.row("a new key, 127 of 128 used", success(count=128), new, store=model.store_of(map(entry, range(127)), 65536))
    rows.row("an old key, 128 used", success(count=128), over, store=FULL)
    rows.row("an old key with another version, 128 used", MISMATCH, over.at(*KEYVALUE, f4=b"6"), store=FULL)
    rows.row("a new key by force, 128 used", NO_SPACE, new.at(*KEYVALUE, f8=1), store=FULL)
    rows.row("a new key with a version given, 128 used", MISMATCH, new.at(*KEYVALUE, f4=b"1"), store=FULL)
    rows.row("a new key with a version given and force, 128 used", NO_SPACE, new.at(*KEYVALUE, f4=b"1", f8=1), store=FULL)
    rows.row("a new key, 1 of 1 used", NO_SPACE, new, store=model.block_of(ENTRIES[0]))
    rows.row("a new key, 0 of 1 used", success(count=1), new, store=bytes(512))
    full = [new, gone, new, new.at(*KEYVALUE, f3=b"newer"), keyed("DELETE", b"key000", f8=1), new.at(*KEYVALUE, f3=b"newer"), ranged(b"n", b"z")]
    wants = [NO_SPACE, success(count=127), success(count=128), NO_SPACE, success(count=127), success(count=128), success(keys=[b"new", b"newer"])]
    for key in b"key001", b"key005", b"key127":
        rows.session(f"128 used, DELETE of {key.decode()}, and puts", [keyed("DELETE", key, f8=1) if made is gone else made for made in full], wants,
                     store=FULL)
    rows.session("129 puts", [keyed("PUT", b"%03d" % (n * 37 % 129), bytes([n]) * (n * 3), f2=b"%d" % n) for n in range(129)], [OK] * 128 + [NO_SPACE],
                 store=bytes(65536))
    rows.says("DELETE: missing key is NOT_FOUND (7), or SUCCESS with force; version as for PUT")
    for asked in None, b"", b"v":
        rows.row(f"missing, dbVersion {asked!r}", NOT_FOUND, keyed("DELETE", b"none", f4=asked))
        rows.row(f"missing, dbVersion {asked!r}, force", success(parts=[1], fields=[]), keyed("DELETE", b"none", f4=asked, f8=1))
    rows.says("GET, GETVERSION: 7 if missing. GETNEXT, GETPREVIOUS: nearest stored key strictly above or below, the asked key need not exist; 7 if none")
    for key, exact, after, before in ((b"key0", b"key0", b"key2", None), (b"key1", None, b"key2", b"key0"), (b"key2", b"key2", None, b"key0"),
                                      (b"a", None, b"key0", None),
                                      (b"z", None, None, b"key2"), (b"key", None, b"key0", None), (b"key00", None, b"key2", b"key0"),
                                      (b"key0\0", None, b"key2", b"key0"),
                                      (b"key2\0", None, None, b"key2"), (b"\0", None, b"key0", None), (b"\xff" * 64, None, None, b"key2"),
                                      (b"key1" * 16, None, b"key2", b"key0")):
        versions = {b"key0": b"v0", b"key2": b"v2"}
        for operation, found in ("GET", exact), ("GETNEXT", after), ("GETPREVIOUS", before):
            rows.row(f"{operation} of {key[:8]!r}", success(key=found, version=versions[found]) if found else NOT_FOUND, keyed(operation, key))
            rows.row(f"{operation} of {key[:8]!r}, empty store", NOT_FOUND, keyed(operation, key), store=bytes(1024))
        rows.row(f"GETVERSION of {key[:8]!r}", success(key=None, version=versions[exact]) if exact else NOT_FOUND, keyed("GETVERSION", key))
    rows.says("GETKEYRANGE: keys above start (or equal, if inclusive) and below end (likewise), ascending, or descending with reverse, the first maxReturned")
    keys = [b"a", b"aa", b"b", b"b\0", b"c"]
    store = model.store_of(map(Entry, keys), 4096)
    for start in b"", b"a", b"aa", b"ab", b"b", b"c", b"d":
        for end in b"", b"a", b"aa", b"b", b"b\0", b"c", b"d":
            for flags in range(8):
                low, high, back = flags & 1, flags >> 1 & 1, flags >> 2
                inside = [k for k in keys if (k > start or low and k == start) and (k < end or high and k == end)]
                for most in None, 1, 2:
                    found = (inside[::-1] if back else inside)[:32 if most is None else most]
                    rows.row(f"{start!r} to {end!r}, flags {low}{high}{back}, maxReturned {most}", success(keys=found, parts=[2]),
                             ranged(start, end, f3=low, f4=high, f5=most, f6=back), store=store)
    rows.says("SETUP sets the cluster version if given")
    rows.row("given", success(cluster=5), GOOD["SETUP"])
    rows.row("not given", success(cluster=3), ask("SETUP", tree((3, [])), cluster=3), record=record(cluster=3))
    rows.row("0", success(cluster=0), ask("SETUP", tree((3, tree((1, 0)))), cluster=3), record=record(cluster=3))
    rows.session("the next message is judged by it", [GOOD["SETUP"], GOOD["NOOP"], GOOD["NOOP"].at(*HEADER, f1=5)], [OK, OTHER_CLUSTER, OK])
    rows.says("SECURITY replaces the whole table")
    many = record(*(Acl(n, KEY, (scope(),) * 4) for n in range(8)), cluster=-9)
    rows.row("eight by one; the cluster version stays", success(acls=(Acl(1, NEW_KEY, (scope({0, 8}),)),), cluster=-9), GOOD["SECURITY"].at(*HEADER, f1=-9),
             record=many)
    rows.row("the caller removed", success(acls=(Acl(2, NEW_KEY, (scope({0, 8}),)),)), secured(acl_tree(2, NEW_KEY, ONE_SCOPE)))
    moved = dataclasses.replace(GOOD["NOOP"], key=NEW_KEY)
    rows.session("the old key no longer signs", [GOOD["SECURITY"], GOOD["NOOP"]], [OK, UNSIGNED])
    rows.session("the new one does", [GOOD["SECURITY"], moved, dataclasses.replace(GOOD["GET"], key=NEW_KEY), dataclasses.replace(GOOD["PUT"], key=NEW_KEY)],
                 [OK, OK, OK, FORBIDDEN])
    rows.session("the caller removed is unknown", [secured(acl_tree(2, KEY, ONE_SCOPE)), GOOD["NOOP"]], [OK, UNSIGNED])


def replies(rows):
    rows.says("Message 4 = 1, HMACauth (the request's identity; hmac under the key that verified the request), 7")
    for identity in 1, 0, -1, MOST, LEAST, 127, 128:
        for operation in "NOOP", "GET", "PUT", "SECURITY":
            rows.row(f"{operation} of identity {identity}", success(**{"signed with": KEY}), GOOD[operation].at(*AUTH, f1=identity),
                     record=record(Acl(identity, KEY, (scope(),))))
    rows.says("Field 6 is the request's sequence, omitted if the command doesn't decode or has none; header 3 the connection's number")
    for n in 0, -1, MOST, LEAST, 127, 128, 16384:
        for made, wanted in (GOOD["NOOP"], OK), (GOOD["NOOP"].at(*HEADER, f1=4), OTHER_CLUSTER), (keyed("GET", b"none"), NOT_FOUND):
            rows.row(f"sequence and connection {n}, code {wanted.code}", wanted, made.at(*HEADER, f3=n, f4=n), connection=connection(n))
        rows.row(f"closing connection {n}", UNREAD, b"\0", connection=connection(n))
    rows.says("Type is the request's minus one; -1 where no built request is read")
    for operation in GOOD:
        for name, way, wanted in ((1, {"f3": None}, HEADERLESS), (2, {"f1": 9}, OTHER_CLUSTER), (3, {"f3": 9}, OUT_OF_TURN), (4, {"f14": 1}, UNDECODED),
                                  (5, {"f4": None}, HEADERLESS)):
            rows.row(f"{operation}, code {wanted.code} ({name})", wanted, GOOD[operation].at(*HEADER, **way))
    for n in 0, 1, 3, 29, 24, 28, -1, 1000:
        rows.row(f"type {n}, another cluster", OTHER_CLUSTER, GOOD["NOOP"].at(*HEADER, f7=n, f1=9))
        rows.row(f"type {n}, no sequence", HEADERLESS, GOOD["NOOP"].at(*HEADER, f7=n, f4=None))
    rows.says("GET, GETNEXT, GETPREVIOUS keyValue 3, 4, 5, 6, empty ones omitted, and the value part unless metadataOnly; "
              "GETVERSION keyValue 4, omitted if empty")
    for version in b"", b"v", b"v" * 16:
        for tag in b"", b"t" * 32:
            for algorithm in 0, 1, 6:
                for value in b"", b"w" * 384:
                    one = Entry(b"key1", version, tag, algorithm, value)
                    store = model.store_of([one], 512)
                    fields = [3] + [4] * bool(version) + [5] * bool(tag) + [6] * bool(algorithm)
                    wants = {"fields": fields, "key": one.key, "version": version or None, "tag": tag or None, "algorithm": algorithm or None, "parts": [1]}
                    for operation, key in ("GET", b"key1"), ("GETNEXT", b"key0"), ("GETPREVIOUS", b"key2"):
                        for only in None, 1:
                            rows.row(f"{operation} of {len(version)}, {len(tag)}, {algorithm}, {len(value)}, metadataOnly {only}",
                                     success(**wants, value=b"" if only else value),
                                     keyed(operation, key, f7=only), store=store)
                    for only in None, 1:
                        rows.row(f"GETVERSION of {len(version)}, {len(tag)}, {algorithm}, {len(value)}, metadataOnly {only}",
                                 success(fields=[4] * bool(version), version=version or None, parts=[1], value=b""), keyed("GETVERSION", b"key1", f7=only),
                                 store=store)
    rows.says("Replies to NOOP, FLUSHALLDATA, SETUP and SECURITY have no body field; PUT and DELETE an empty keyValue; an empty range is kept")
    for operation in "NOOP", "FLUSHALLDATA", "SETUP", "SECURITY":
        rows.row(operation, success(parts=[], value=b""), GOOD[operation])
    for operation in "PUT", "DELETE":
        rows.row(operation, success(parts=[1], fields=[], value=b""), GOOD[operation])
    rows.row("GETKEYRANGE, maxReturned 0", success(parts=[2], keys=[]), ranged(f5=0))
    rows.says("A reply fits 4,096 bytes")
    keys = [bytes([n]) + b"k" * 63 for n in range(128)]
    rows.row("32 keys of 64", success(keys=keys[:32]), ranged(b"", b"\xff").at(*AUTH, f1=LEAST).at(*HEADER, f3=LEAST, f4=LEAST),
             store=model.store_of(map(Entry, keys), 65536), record=record(Acl(LEAST, KEY, (scope(),))),
             connection=connection(LEAST))


def readings(rows):
    rows.says("W1 Command of NOOP_RESPONSE to identity 1, connection 1, sequence 2: 0A 06 18 01 30 02 38 1D 1A 02 08 01. "
              "Its message is 42 bytes, the whole 51")
    command = bytes.fromhex("0A0618013002381D1A020801")
    whole = frame(message((4, 1), (5, message((1, 1), (2, model.hmac_of(KEY, command)))), (7, command)))
    assert len(whole) == 51
    rows.row("W1", success(reply=whole.hex(" ")), GOOD["NOOP"].at(*HEADER, f3=1, f4=2), connection=connection(1))
    rows.says("W2 Whole closing reply, connection 1, code 20: 46 00 00 00 0C 00 00 00 00 20 03 3A 08 0A 02 18 01 1A 02 08 14")
    rows.row("W2", Says(20, 1, {"reply": "46 00 00 00 0c 00 00 00 00 20 03 3a 08 0a 02 18 01 1a 02 08 14"}), b"\0", connection=connection(1))
    rows.says("W3 Key \"A\", all else empty: check 00 00 02 4C (588)")
    rows.row("W3", success(block="0101" + "00" * 6 + "41" + "00" * 499 + "0000024c"), keyed("PUT", b"A"), store=bytes(512))
    rows.says("W9 Stored key0, key2; next of key1 is key2. W10 Previous of key1 is key0; of key0, NOT_FOUND. W11 start = end, one flag off: empty list")
    rows.row("W9", success(key=b"key2"), keyed("GETNEXT", b"key1"))
    rows.row("W10", success(key=b"key0"), keyed("GETPREVIOUS", b"key1"))
    rows.row("W10, of key0", NOT_FOUND, keyed("GETPREVIOUS", b"key0"))
    for low, high in (0, 0), (0, 1), (1, 0), (1, 1):
        rows.row(f"W11, flags {low}, {high}", success(keys=[b"key0"] * (low & high), parts=[2]), ranged(b"key0", b"key0", f3=low, f4=high))


def tempting(rows):
    rows.says("Tempting and wrong: taking the value anywhere in the key")
    rows.row("test in 1234test", FORBIDDEN, keyed("GET", b"1234test"), record=scoped(scope(ALL, 3, b"test")), store=model.store_of([Entry(b"1234test")], 512))
    rows.says("Tempting and wrong: the permission from one scope and the key fit from another")
    rows.row("READ for x, WRITE for key", FORBIDDEN, GOOD["GET"], record=scoped(scope({0}, 0, b"x"), scope({1}, 0, b"key")))
    rows.says("Tempting and wrong: running a PUT with batchID as a plain PUT")
    for content in 1, 0, b"", Fixed(bytes(4)):
        rows.row(f"batchID {content!r}", UNDECODED, GOOD["PUT"].adding((14, content), to=HEADER))
    rows.says("Tempting and wrong: signing SECURITY's reply with the new key")
    rows.row("the old key", success(**{"signed with": KEY}), GOOD["SECURITY"])
    rows.row("the old key, another identity's ACL first", success(**{"signed with": KEY}),
             secured(acl_tree(5, b"five", ONE_SCOPE), acl_tree(1, NEW_KEY, ONE_SCOPE)))
    rows.says("Tempting and wrong: accepting an equal sequence")
    rows.session("the same message twice", [GOOD["NOOP"].at(*HEADER, f4=5), GOOD["NOOP"].at(*HEADER, f4=5)], [OK, OUT_OF_TURN], as_is=True)
