"""What is lent: the call refusals, the blocks, the device record; and the calls beside the answering one."""
import dataclasses
import hashlib

import model
from messages import AUTH
from model import Acl, Entry, Table, frame
from rows import (ALL, CLOSED, DEVICE_BAD, ENTRIES, FULL, GOOD, KEY, LEAST, MORE, MOST, NEW_KEY, OK, OUT_SHORT, READINGS, READINGS_BAD, RECORD, STORE,
                  STORE_BAD, UNREAD, UNSIGNED, Says, connection, entry, record, scope, success, turned)


def refusals(rows):
    noop, bad_store, bad_record, closed = GOOD["NOOP"], b"\2" + STORE[1:], RECORD[:8] + b"\0" + RECORD[9:], connection(closed=1)
    bad_readings = b"\5" + READINGS[1:]
    rows.says("OUT_SHORT: reply buffer under 4,096 bytes")
    for room in 0, 1, 4095:
        rows.row(f"{room} bytes", OUT_SHORT, noop, room=room)
    rows.row("0 bytes at NULL", OUT_SHORT, noop, room=0, null=True)
    for room in 4096, 4097, 16384:
        rows.row(f"{room} bytes", OK, noop, room=room)
    rows.says("Checked in this order")
    wrong = [("room", 4095, OUT_SHORT), ("store", bad_store, STORE_BAD), ("record", bad_record, DEVICE_BAD), ("connection", closed, CLOSED),
             ("readings", bad_readings, READINGS_BAD)]
    for n in range(len(wrong)):
        rows.row(f"{wrong[n][0]} and all that is judged after it", wrong[n][2], noop, **{what: lent for what, lent, _ in wrong[n:]})
        rows.row(f"{wrong[n][0]}, all that is judged after it, and MORE", wrong[n][2] if wrong[n][2] is not READINGS_BAD else MORE, b"\x46",
                 **{what: lent for what, lent, _ in wrong[n:]})
        for m in range(n + 1, len(wrong)):
            rows.row(f"{wrong[n][0]} and {wrong[m][0]}", wrong[n][2], noop, **{wrong[n][0]: wrong[n][1], wrong[m][0]: wrong[m][1]})
        rows.row(f"{wrong[n][0]} and MORE", wrong[n][2] if wrong[n][2] is not READINGS_BAD else MORE, b"", **{wrong[n][0]: wrong[n][1]})
        rows.row(f"{wrong[n][0]} and a frame that closes", wrong[n][2], b"\0", **{wrong[n][0]: wrong[n][1]})
    rows.says("CLOSED: this connection was closed")
    for byte in 1, 2, 255:
        for name, data in ("a NOOP", noop), ("no input", b""), ("a wrong first byte", b"\0"), ("an open frame", b"\x46"):
            rows.row(f"byte 9 is {byte}, {name}", CLOSED, data, connection=connection(closed=byte))
    rows.session("after a closing reply", [b"\0", noop, b""], [UNREAD, CLOSED, CLOSED])
    rows.session("after an HMAC_FAILURE", [dataclasses.replace(noop, key=b"other"), noop], [UNSIGNED, CLOSED])
    rows.says("MORE: the input, possibly empty, is a proper start of some frame with first byte 46 hex and both lengths within limits")
    rows.row("no input at NULL", MORE, b"", null=True)
    whole = GOOD["PUT"].bytes()
    for cut in range(len(whole)):
        rows.row(f"{cut} bytes of a PUT of {len(whole)}", MORE, whole[:cut])
    rows.row("the whole of it", OK, whole)
    undecodable = frame(b"\0" * 20)
    for cut in range(len(undecodable)):
        rows.row(f"{cut} bytes of a frame that won't decode", MORE, undecodable[:cut])
    for text, wanted in (("46", MORE), ("46 00 00 20", MORE), ("46 00002000 000004", MORE), ("46 00002000 00000400", MORE), ("46 00 00 1f ff", MORE),
                         ("46 01", UNREAD), ("46 00 01", UNREAD), ("46 00 00 21", UNREAD), ("46 00 00 20 01", UNREAD), ("46 00000000 01", UNREAD),
                         ("46 00000000 0001", UNREAD), ("46 00000000 000005", UNREAD), ("46 00000000 00000401", UNREAD), ("46 ffffffff ffffffff", UNREAD),
                         ("46 80000000", UNREAD), ("46 00000000 80", UNREAD), ("46 00002000 00000401", UNREAD), ("46 00002001", UNREAD), ("45", UNREAD),
                         ("47", UNREAD), ("00", UNREAD), ("ff", UNREAD), ("c6", UNREAD)):
        data = bytes.fromhex(text)
        rows.row(text, wanted if wanted is MORE else Says(20, 1, {"taken": len(data)}), data)


def store_rules(rows):
    noop = GOOD["NOOP"]
    rows.says("STORE_BAD: store not 1 to 128 blocks of 512")
    for length in 0, 1, 511, 513, 1023, 65535, 65537, 66048, 131072:
        rows.row(f"{length} zero bytes", STORE_BAD, noop, store=bytes(length))
    rows.row("no store, at NULL", STORE_BAD, noop, store=b"", null=True)
    for length in 512, 1024, 65024, 65536:
        rows.row(f"{length} zero bytes", OK, noop, store=bytes(length))
    rows.row("128 used blocks", OK, noop, store=FULL)
    rows.row("129 used blocks", STORE_BAD, noop, store=FULL + model.block_of(entry(128)))
    rows.says("Blocks: each rule of the table of bytes")
    most = Entry(b"k" * 64, b"v" * 16, b"t" * 32, 6, b"w" * 384)
    for name, one in (("all as long as can be", most), ("all as short as can be", Entry(b"A")),
                      ("bytes of 255", Entry(b"\xff" * 64, b"\xff" * 16, b"\xff" * 32, 6, b"\xff" * 384)),
                      ("zeros", Entry(bytes(64), bytes(16), bytes(32), 0, bytes(384))), *((f"algorithm {n}", Entry(b"A", algorithm=n)) for n in range(7))):
        rows.row(name, OK, noop, store=model.block_of(one))
    for name, base, changes in block_faults(most):
        rows.row(name, STORE_BAD, noop, store=summed(base, changes))
        rows.row(name + ", in the last of three", STORE_BAD, noop, store=model.store_of(ENTRIES, 1024) + summed(base.replace(b"A", b"z", 1), changes))
    good = model.block_of(Entry(b"A", value=b"x"))
    for place in (0, 1, 8, 120, 121, 503, 508, 509, 510, 511):
        for bit in 0, 7:
            rows.row(f"bit {bit} of byte {place} turned, the sum left", STORE_BAD, noop, store=turned(good, place, bit) + bytes(512))
    for place in (1, 7, 8, 255, 504, 507, 508, 511):
        rows.row(f"a blank block whose byte {place} is 1", STORE_BAD, noop, store=good + turned(bytes(512), place, 0))
    rows.says("Used blocks come first, every used block's key strictly below the next in byte order, a prefix before the longer key")
    for keys, wanted in ((("a", "b"), OK), (("b", "a"), STORE_BAD), (("a", "a"), STORE_BAD), (("a", "aa"), OK), (("aa", "a"), STORE_BAD), (("aa", "b"), OK),
                         (("b", "aa"), STORE_BAD), (("\x7f", "\x80"), OK), (("\x80", "\x7f"), STORE_BAD), (("a", "a\0"), OK), (("a\0", "a"), STORE_BAD),
                         (("a\0", "a\0\0"), OK), (("a" * 63, "a" * 64), OK), (("a" * 64, "a" * 63), STORE_BAD), (("a" * 63 + "b", "a" * 63 + "c"), OK),
                         (("a" * 63 + "c", "a" * 63 + "b"), STORE_BAD), (("a" * 64, "a" * 64), STORE_BAD), (("a", "b", "b"), STORE_BAD),
                         (("a", "c", "b"), STORE_BAD),
                         (("abcd\1", "abce\0"), OK), (("abce\0", "abcd\1"), STORE_BAD), (("\0", "\0\0"), OK), (("ab\1", "ab\0\2"), STORE_BAD)):
        blocks = b"".join(model.block_of(Entry(key.encode("latin-1"), version=bytes([n]))) for n, key in enumerate(keys))
        rows.row("keys " + " ".join(map(repr, keys)), wanted, noop, store=blocks + bytes(512))
    one, two = map(model.block_of, ENTRIES)
    for name, blocks, wanted in (("a blank block first", [bytes(512), one], STORE_BAD), ("a blank block between", [one, bytes(512), two], STORE_BAD),
                                 ("blank blocks last", [one, two, bytes(512), bytes(512)], OK), ("none blank", [one, two], OK),
                                 ("all blank", [bytes(512)] * 3, OK)):
        rows.row(name, wanted, noop, store=b"".join(blocks))


def block_faults(most):
    """Blocks that break one rule, their sums right: a name, a block, and changes to its bytes."""
    least, full = model.block_of(Entry(b"A")), model.block_of(most)
    shorter = model.block_of(Entry(b"A", b"v", b"t", 1, b"w"))
    for byte in 0, 2, 3, 128, 255:
        yield f"byte 0 is {byte}", least, {0: byte}
    for place, name, limits in ((1, "key", (65, 66, 128, 255)), (2, "version", (17, 32, 255)), (3, "tag", (33, 64, 255)), (6, "algorithm", (7, 8, 128, 255)),
                                (7, "zero", (1, 255))):
        for byte in limits:
            yield f"byte {place}, {name}, is {byte}", full, {place: byte}
    yield "a key of 0 bytes", least, {1: 0, 8: 0}
    yield "a key of 0 bytes, a byte in its place", least, {1: 0}
    for high, low in ((1, 129), (2, 0), (255, 255), (128, 0), (1, 255)):
        yield f"a value of {high * 256 + low} bytes", full, {4: high, 5: low}
    for place in 9, 71, 73, 87, 89, 119, 121, 503:
        yield f"byte {place}, after what fills its part, is 1", shorter, {place: 1}
    for place in 504, 505, 506, 507:
        yield f"byte {place} is 1", shorter, {place: 1}


def summed(block, changes):
    """A block with bytes changed and its sum put right."""
    body = bytearray(block[:508])
    for place, byte in changes.items():
        body[place] = byte
    return bytes(body) + sum(byte * (place + 1) for place, byte in enumerate(body)).to_bytes(4, "big")


def record_rules(rows):
    noop, scopes = GOOD["NOOP"], (scope(),)
    rows.says("DEVICE_BAD: device record breaks an ACL rule")

    def with_bytes(data, **changes):
        data = bytearray(data)
        for name, content in changes.items():
            at = int(name[1:])
            data[at:at + len(content)] = content
        return bytes(data)

    eight = record(*(Acl(n + 1, KEY, scopes) for n in range(8)))
    for count in range(1, 9):
        rows.row(f"{count} ACLs", OK, noop, record=with_bytes(eight, b8=bytes([count])))
    for count in 0, 9, 16, 128, 255:
        rows.row(f"{count} ACLs", DEVICE_BAD, noop, record=with_bytes(eight, b8=bytes([count])))
    for place in (16, 16 + 7 * 368):
        for name, at, good, bad in (("key length", 8, (1, 64), (0, 65, 255)), ("number of scopes", 9, (1, 4), (0, 5, 255)),
                                    ("offset", 80, (0, 64), (65, 128, 255)), ("value length", 81, (0, 64), (65, 255))):
            base = with_bytes(record(*(Acl(n + 1, b"k" * 64, (scope(),) * 4) for n in range(8))))
            for byte in good:
                wanted = Says(2, 2) if name == "key length" and byte == 1 else OK
                rows.row(f"place {place}: {name} {byte}", wanted, dataclasses.replace(noop, key=b"k" * 64).at(*AUTH, f1=1 if place == 16 else 8),
                         record=with_bytes(base, **{f"b{place + at}": bytes([byte])}))
            for byte in bad:
                rows.row(f"place {place}: {name} {byte}", DEVICE_BAD, noop, record=with_bytes(base, **{f"b{place + at}": bytes([byte])}))
        for bits in range(16):
            rows.row(f"place {place}: only permission {bits}", OK if bits in ALL else DEVICE_BAD, noop,
                     record=with_bytes(eight, **{f"b{place + 82}": (1 << bits).to_bytes(2, "big")}))
            rows.row(f"place {place}: permissions 0 and {bits}", OK if bits in ALL else DEVICE_BAD, noop,
                     record=with_bytes(eight, **{f"b{place + 82}": (1 << bits | 1).to_bytes(2, "big")}))
        rows.row(f"place {place}: no permission", DEVICE_BAD, noop, record=with_bytes(eight, **{f"b{place + 82}": b"\0\0"}))
        rows.row(f"place {place}: every bit", DEVICE_BAD, noop, record=with_bytes(eight, **{f"b{place + 82}": b"\xff\xff"}))
    four = record(Acl(1, KEY, (scope(),) * 4))
    rows.row("the fourth scope without permission", DEVICE_BAD, noop, record=with_bytes(four, **{f"b{16 + 80 + 3 * 72 + 2}": b"\0\0"}))
    for name, ids in (("equal first and last", (5, 1, 5)), ("equal neighbours", (1, 1)), ("equal negative", (-1, 1, -1)), ("equal zeros", (1, 0, 0))):
        rows.row("identities " + name, DEVICE_BAD, noop, record=record(*(Acl(n, KEY, scopes) for n in ids)))
    for n in 1, 0, -1, MOST, LEAST:
        rows.row(f"two ACLs of identity {n}, all else different", DEVICE_BAD, noop,
                 record=record(Acl(7, KEY, scopes), Acl(n, b"k", (scope({0}, 1, b"x"),)), Acl(n, KEY, (scope({1}), scope({2}, 3, b"yy", True)))))
    for name, ids in (("that differ in the sign", (1, -1, 0)), ("that differ in the highest byte", (1, 1 + (1 << 56))), ("at the ends", (1, MOST, LEAST)),
                      ("that differ in the lowest bit", (1, 0)), ("of a place that doesn't count", (1,))):
        rows.row("identities " + name, OK, noop, record=record(*(Acl(n, KEY, scopes) for n in ids)))
    rows.says("Bytes that the layout of the record doesn't use are not looked at")
    one = record()
    for name, data in (("9-15", with_bytes(one, b9=b"\xff" * 7)), ("10-15 of an ACL", with_bytes(one, b26=b"\xff" * 6)),
                       ("after the key", with_bytes(one, b42=b"\xff" * 54)),
                       ("5-7 of a scope", with_bytes(one, b101=b"\xff" * 3)), ("a value's place", with_bytes(one, b104=b"\xff" * 64)),
                       ("the other scopes", with_bytes(one, b168=b"\xff" * 216)), ("the other ACLs", with_bytes(one, b384=b"\xff" * 2576)),
                       ("TlsRequired 255, protected", with_bytes(one, b100=b"\xff"))):
        rows.row(name, OK, noop, record=data)
        rows.row(name + ", a GET", OK, GOOD["GET"], record=data, connection=connection(protected=1))
        rows.row(name + ", a SETUP", success(cluster=5), GOOD["SETUP"], record=data, connection=connection(protected=1))
        rows.row(name + ", a SECURITY", success(acls=(Acl(1, NEW_KEY, (scope({0, 8}),)),)), GOOD["SECURITY"], record=data, connection=connection(protected=1))


def other_calls(rows):
    rows.says("Format gives 2 only for the store's length, then 6 (KEY_BAD: host key not 1 to 64 bytes); it ignores old contents")
    junk = bytes(n * 7 % 256 for n in range(66048))
    for length in 0, 1, 511, 512, 513, 1024, 65535, 65536, 66048:
        for size in 0, 1, 64, 65, 128, 256:
            wanted = 2 if length not in (512, 1024, 65536) else 0 if 1 <= size <= 64 else 6
            for store in bytes(length), junk[:length]:
                rows.call(f"store of {length}, key of {size}", wanted, "format", store=store, record=junk[:2960],
                          key=bytes(range(1, size)) + b"k" * bool(size))
    rows.call("store and key at NULL", 2, "format", store=b"", record=junk[:2960], key=b"", null=True)
    rows.call("key at NULL", 6, "format", store=bytes(512), record=junk[:2960], key=b"", null=True)

    def made(after):
        table = model.table_of(after["record"])
        wanted = Table(0, (Acl(1, KEY, (scope(),)),))
        return None if table == wanted and not any(after["store"]) else f"table {table}, wanted {wanted}, store blank: {not any(after['store'])}"
    rows.says("Format: the one ACL is identity 1, a key from the host, one scope with every permission, cluster version 0; a store of blank blocks")
    rows.call("a store of four blocks", made, "format", store=junk[:2048], record=junk[:2960], key=KEY)
    rows.says("Connect: connection number, protected or not; no sequence seen yet")
    for n in 0, 1, -1, 7, MOST, LEAST, 1 << 32, 255, 256:
        for protected in 0, 1, 2, 128, 255:
            rows.call(f"number {n}, protected {protected}", 0, "connect", connection=junk[:32], number=n, protected=protected)
    rows.says("Local read: the value under a key comes back as a part of the lent store; found, not found, or, judged first, refusal 2")
    for key, wanted in ((b"key0", 0), (b"key2", 0), (b"key1", 1), (b"key", 1), (b"key00", 1), (b"key0\0", 1), (b"", 1), (b"k" * 64, 1), (b"k" * 65, 1),
                        (b"k" * 1000, 1), (b"\0", 1)):
        rows.call(f"{key[:8]!r} of {len(key)}", wanted, "find", store=STORE, key=key)
        rows.call(f"{key[:8]!r} of {len(key)} in a bad store", 2, "find", store=turned(STORE, 1500, 0), key=key)
        rows.call(f"{key[:8]!r} of {len(key)} in no store", 2, "find", store=b"", key=key, null=True)
        rows.call(f"{key[:8]!r} of {len(key)} in a blank store", 1, "find", store=bytes(512), key=key)
        rows.call(f"{key[:8]!r} of {len(key)} in 129 blocks", 2, "find", store=bytes(66048), key=key)
    rows.call("the key at NULL", 1, "find", store=STORE, key=b"", null=True)
    most = model.block_of(Entry(b"k" * 64, b"v" * 16, b"t" * 32, 6, b"w" * 384))
    rows.call("a key of 64 and a value of 384", 0, "find", store=most, key=b"k" * 64)
    rows.call("a key of 65 that begins like it", 1, "find", store=most, key=b"k" * 65)
    for n in 0, 1, 63, 64, 126, 127:
        rows.call(f"the {n}th of 128", 0, "find", store=FULL, key=entry(n).key)


def signatures(rows):
    rows.says("SHA-1 is FIPS 180-4")

    def digest(text):
        def held(after):
            got = after["returned"], after["digest"].hex()
            return None if got == (0, text) else f"returned {got[0]}, digest {got[1]}, wanted 0, {text}"
        return held
    for text, wanted in ((b"abc", "a9993e364706816aba3e25717850c26c9cd0d89d"), (b"", "da39a3ee5e6b4b0d3255bfef95601890afd80709"),
                         (b"abcdbcdecdefdefgefghfghighijhijkijkljklmklmnlmnomnopnopq", "84983e441c3bd26ebaae4aa1f95129e5e54670f1"),
                         (b"a" * 1000000, "34aa973cd4c4daa4f61eeb2bdbad27316534016f")):
        rows.call(f"published: {len(text)} bytes", digest(wanted), "sha1", text=text)
    rows.call("no text, at NULL", digest("da39a3ee5e6b4b0d3255bfef95601890afd80709"), "sha1", text=b"", null=True)
    for length in (*range(0, 130), 183, 184, 191, 192, 4096, 65536):
        text = bytes((n * n + length) % 256 for n in range(length))
        rows.call(f"{length} bytes", digest(hashlib.sha1(text).hexdigest()), "sha1", text=text)
    rows.says("HMAC takes keys up to 128 bytes, those over 64 hashed first, and up to 1,048,576 of text, else says so and gives no digest")
    for n, (key, text, wanted) in enumerate(((b"\x0b" * 20, b"Hi There", "b617318655057264e28bc0b6fb378c8ef146be00"),
                                             (b"Jefe", b"what do ya want for nothing?", "effcdf6ae5eb2fa2d27416d5f184df9c259a7c79"),
                                             (b"\xaa" * 20, b"\xdd" * 50, "125d7342b9ac11cd91a39af48aa17b4f63f175d3"),
                                             (bytes(range(1, 26)), b"\xcd" * 50, "4c9007f4026250c6bc8414f9bf50c86c2d7235da"),
                                             (b"\x0c" * 20, b"Test With Truncation", "4c1a03424b55e07fe7f27be1d58bb9324a9a5a04"),
                                             (b"\xaa" * 80, b"Test Using Larger Than Block-Size Key - Hash Key First",
                                              "aa4ae5e15272d00e95705637ce8a3b55ed402112"),
                                             (b"\xaa" * 80, b"Test Using Larger Than Block-Size Key and Larger Than One Block-Size Data",
                                              "e8e99d0f45237d786d6bbaa7965c7808bbff1a91"))):
        rows.call(f"RFC 2202 case {n + 1}", digest(wanted), "hmac", key=key, text=text)
    for length in 0, 1, 63, 64, 65, 127, 128:
        rows.call(f"a key of {length}", 0, "hmac", key=bytes(range(length)), text=b"text")
        rows.call(f"a key of {length}, no text", 0, "hmac", key=bytes(range(length)), text=b"", null=True)
    for length in 129, 130, 256, 5000:
        rows.call(f"a key of {length}", 1, "hmac", key=bytes(length), text=b"text")
    rows.call("a text of 1,048,576", 0, "hmac", key=KEY, text=bytes(1 << 20))
    rows.call("a text of 1,048,577", 2, "hmac", key=KEY, text=bytes((1 << 20) + 1))
    rows.call("a key of 128, a text of 1,048,576", 0, "hmac", key=bytes(128), text=b"t" * (1 << 20))
    rows.call("a key of 129, a text of 1,048,577", 1, "hmac", key=bytes(129), text=bytes((1 << 20) + 1))
    for length in (*range(0, 130, 9), 55, 56, 64, 119, 120):
        rows.call(f"a text of {length}", 0, "hmac", key=KEY, text=bytes(range(length)))
