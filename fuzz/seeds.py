#!/usr/bin/env python3
"""seeds.py FOLDER: writes a seed corpus for fuzz/answer.c, with the encoder of conformance/model.py.

A seed is the choices of answer.c, a byte or two each, and the bytes that they turn into an input, those of a further occurrence (`other`) first.
"""
import pathlib
import sys

sys.path.insert(0, str(pathlib.Path(__file__).resolve().parent.parent / "conformance"))
from model import TYPES, field, frame, header_of, message, signed

NUMBER, KEY = 7, b"key-of-one"
ORDER = ["GET", "PUT", "DELETE", "GETNEXT", "GETPREVIOUS", "GETKEYRANGE", "GETVERSION", "SETUP", "SECURITY", "NOOP", "FLUSHALLDATA", "GETLOG"]
NO_STORE, BLANK, ENTRIES, FULL, DAMAGED, SEALED, LENGTH, MIXED = range(8)
RAW, MESSAGE, COMMAND, BODY, PART = range(5)
NO_VALUE, VALUE_384, VALUE_385 = 0, 4, 5
NOT_AGAIN, PART_AGAIN, BODY_AGAIN, HEADER_AGAIN, COMMAND_FIELDS, AUTH_AGAIN, COMMAND_BYTES_AGAIN, MESSAGE_FIELDS = range(8)
AFTER = 0x80
FORMATTED, TABLE, LITTERED, RECORD_DAMAGED, TENANTS, OTHER_TENANTS = range(6)
EVERY_READING, NO_READING, READING_VALUE, READING_DAMAGED, READINGS_LENGTH, READINGS_EMPTY = range(6)


def seed(rest, form=PART, operation="GET", store=ENTRIES, blocks=3, entries=2, store_place=0, store_change=0, record=1, record_place=0,
         record_change=0, connection=0, last=0, out=0, value=NO_VALUE, step=1, identity=0, end=0, sides=0, readings=EVERY_READING,
         readings_place=0, readings_change=0, bits=0, report=0, again=NOT_AGAIN, other=b""):
    return bytes([store, blocks, entries, *store_place.to_bytes(2, "big"), store_change, record, *record_place.to_bytes(2, "big"), record_change,
                  connection, last, out, form, value, ORDER.index(operation), step, identity, end, sides, readings, readings_place, readings_change,
                  *bits.to_bytes(4, "big"), report, again, *len(other).to_bytes(2, "big")]) + other + rest


def key_values():
    for operation in ("GET", "GETVERSION", "GETNEXT", "GETPREVIOUS"):
        for key in (b"key000", b"key0005", b"k", b"z" * 64):
            yield seed(message((3, key)), operation=operation)
        yield seed(message((3, b"key001"), (7, 1)), operation=operation, identity=2)
    for store in (BLANK, ENTRIES, FULL):
        for part in (message((3, b"new")), message((2, b"v9"), (3, b"key000"), (4, b"v0"), (5, b"tag"), (6, 1)),
                     message((3, b"key001"), (8, 1), (9, 2))):
            yield seed(part, operation="PUT", store=store, value=VALUE_384)
            yield seed(part, operation="DELETE", store=store)
    yield seed(message((3, b"key000")), operation="PUT", value=VALUE_385)


def ranges():
    for flags in ((), ((3, 1),), ((4, 1),), ((3, 1), (4, 1), (6, 1))):
        yield seed(message((1, b"key001"), (2, b"key003"), *flags), operation="GETKEYRANGE", blocks=255, store=FULL)
    yield seed(message((1, b""), (2, b"\xff"), (5, 32)), operation="GETKEYRANGE", blocks=255, store=FULL)
    yield seed(message((1, b"key0"), (2, b"key02"), (5, 2)), operation="GETKEYRANGE", identity=2)


def tenants():
    """Keys that no usable scope fits beside such that one does: from both ends, past the last, between, on plain and protected connections."""
    for identity in (0, 1, 2):
        for connection in (0, 1):
            state = {"record": TENANTS, "store": FULL, "blocks": 255, "identity": identity, "connection": connection}
            for operation in ("GETNEXT", "GETPREVIOUS"):
                for key in (b"a", b"key003", b"key0035", b"key064", b"key123", b"key127", b"z"):
                    yield seed(message((3, key)), operation=operation, **state)
                yield seed(message((3, b"key064"), (7, 1)), operation=operation, **{**state, "blocks": 7})
            for most in (None, 0, 1, 2, 12, 32):
                for reverse in (None, 1):
                    yield seed(message((1, b""), (2, b"z"), (5, most), (6, reverse)), operation="GETKEYRANGE", **state)
            yield seed(message((1, b"key003"), (2, b"key013"), (3, 1), (4, 1)), operation="GETKEYRANGE", **state)
            yield seed(message((1, b"key004"), (2, b"key013")), operation="GETKEYRANGE", **state)
            yield seed(message((3, b"key003")), operation="GET", **state)
    for operation, part in (("GETNEXT", message((3, b"k"))), ("GETPREVIOUS", message((3, b"z"))), ("GETKEYRANGE", message((1, b"k"), (2, b"z")))):
        for place in (25, 96, 97, 99, 100, 104, 168, 172, 176):  # identity 1's number of scopes, and bytes of its first two
            yield seed(part, operation=operation, record=OTHER_TENANTS, record_place=place, record_change=1, store=FULL, blocks=255)


def log(*types):
    return message(*((1, kind) for kind in types))


def logs():
    for types in ((0,), (1,), (2,), (6,), (0, 1, 2, 6), (6, 6, 0, 2, 1, 0), (3,), (7,), (7, 5), (0, 7), (8,), (-1,), ()):
        yield seed(log(*types), operation="GETLOG")
    for used in range(0, 8, 3):
        yield seed(log(2), operation="GETLOG", blocks=6, entries=used)
    every = log(0, 1, 2, 6)
    for identity in (1, 2):
        yield seed(every, operation="GETLOG", identity=identity)
    yield seed(every, operation="GETLOG", value=VALUE_384)
    yield seed(message((1, b"\0\1")), operation="GETLOG")
    yield seed(message((2, b"name")) + every + field(8, b"\xff"), operation="GETLOG")
    yield seed(message((1, message((3, b"key000"))), (6, every)), form=BODY)
    yield seed(message((6, every), (6, every)), form=BODY, operation="GETLOG")
    for change in ({"readings": NO_READING}, {"readings": READINGS_EMPTY}, {"readings": READINGS_EMPTY, "sides": 0x80}, {"sides": 0x7f},
                   *({"readings": READINGS_LENGTH, "readings_change": n} for n in (0, 1, 112, 133, 134, 255)),
                   *({"readings": READING_DAMAGED, "readings_place": place, "readings_change": n}
                     for place, n in ((0, 1), (0, 4), (1, 1), (1, 2), (2, 1), (3, 1), (3, 0x10), (25, 0x10), (69, 8), (91, 0x1f), (113, 2), (20, 0x3d),
                                      (133, 1)))):
        yield seed(every, operation="GETLOG", **change)
        yield seed(b"", form=BODY, operation="NOOP", **change)
        yield seed(every, operation="GETLOG", end=1, **change)
    for bits in (0, 1, 1 << 31, 0x007fffff, 0x7f7fffff, 0x7f800000, 0xff800000, 0x7fc00000, 0x42000000, 0x42c53333, 0x43540000, 0xc3e5d5c3, 0x7e4ccccc,
                 0x7e4ccccd, 0x4e000001):
        for place in (0, 1, 5):
            yield seed(every, operation="GETLOG", readings=READING_VALUE, readings_place=place, bits=bits)


def scope(*permissions, offset=None, value=None, tls=None):
    return message((1, offset), (2, value), *((3, p) for p in permissions), (4, tls))


def acl(identity, key, *scopes, algorithm=None):
    return message((1, identity), (2, key), (3, algorithm), *((4, s) for s in scopes))


def tables():
    every = scope(0, 1, 2, 3, 4, 5, 7, 8, 9)
    for acls in ([acl(1, b"k", every)], [acl(-1, b"k" * 64, every, scope(0, offset=64, value=b"v" * 64, tls=1))], [acl(1, b"k", every, algorithm=2)],
                 [acl(n, b"k", *[scope(n)] * 4) for n in (0, 1, 2, 3, 4, 5, 7, 8)], [acl(n, b"k", every) for n in range(9)],
                 [acl(1, b"k", every), acl(1, b"l", every)], [acl(1, b"k", scope(0, offset=-1))], [acl(1, b"k", *[scope(0)] * 5)], []):
        yield seed(message(*((2, a) for a in acls)), operation="SECURITY")


def others():
    for operation in ("NOOP", "FLUSHALLDATA"):
        yield seed(b"", form=BODY, operation=operation)
    for part in (b"", message((1, 5)), message((1, -1))):
        yield seed(part, operation="SETUP")
    yield seed(message((1, message((3, b"key000")))) + field(15, b"unlisted"), form=BODY)
    command = message((1, header_of(NUMBER, 1, TYPES["GET"], cluster=0)), (2, message((1, message((3, b"key000"))))), (3, b"status"))
    yield seed(command, form=COMMAND)
    yield seed(b"", form=COMMAND)
    yield seed(command, form=COMMAND, identity=0x80)
    yield seed(command, form=COMMAND, identity=3)
    yield seed(signed(1, KEY, command, extra=field(6, b"pin"), extra_auth=field(9, 1)), form=MESSAGE)
    yield seed(message((4, 2), (7, command)), form=MESSAGE)
    later = message((1, header_of(NUMBER, 2, TYPES["DELETE"])), (2, message((1, message((3, b"key000"), (8, 1))))))
    yield seed(frame(signed(1, KEY, command)) + frame(signed(1, KEY, later)) + b"\0", form=RAW)
    for rest in (b"", b"\x46", b"\x46\0\0\x21", b"\x46\0\0\x20\0\0\0\4\1", b"\0", frame(b"")):
        yield seed(rest, form=RAW)


def states():
    key = message((3, b"key000"))
    for change in ({"store": NO_STORE, "sides": 0x80}, {"store": LENGTH}, {"blocks": 255, "entries": 128}, {"record": 0}, {"record": 2},
                   {"out": 1, "sides": 0x80}, {"out": 2}, {"out": 3}, {"end": 1}, {"end": 0x90}, {"sides": 0x7f},
                   {"identity": 1}, {"connection": 1, "identity": 1}, {"connection": 0xf8}, {"connection": 0x37, "last": 5},
                   {"connection": 2, "last": 0xff, "step": 0}, {"connection": 10, "last": 0x7f}, {"connection": 10, "last": 0x80},
                   {"connection": 10, "last": 0x80, "step": 0xff}):
        yield seed(key, **change)
    for place in (0, 1, 2, 3, 4, 6, 7, 8, 71, 72, 88, 120, 503, 504, 508, 511, 512, 520, 1024, 1535):
        for kind in (DAMAGED, SEALED):
            yield seed(key, store=kind, store_place=place, store_change=1)
    for place in (0, 8, 9, 23, 24, 25, 31, 96, 97, 98, 99, 100, 399, 2959):
        yield seed(key, record=3, record_place=place, record_change=0x41)
    yield seed(key, record=3, record_place=391, record_change=2)  # identity 1 twice


def rescues():
    key = message((3, b"key000"))
    for report in range(4, 8):
        for store in (NO_STORE, ENTRIES, FULL, LENGTH):
            yield seed(key, store=store, report=report, sides=0x80)
    for blocks in (1, 5, 7, 255):
        for step in (1, 2, 32, 37, 64, 127, 128):
            yield seed(key, store=MIXED, blocks=blocks, entries=step, store_place=3 << 8 | 120, store_change=step % 2, sides=step)
    for place in (0, 1, 4, 7, 8, 13, 120, 504, 511):
        yield seed(key, store=MIXED, blocks=6, entries=5, store_place=512 + place, store_change=1)


# For an operation: the number of its part in a body, and two occurrences of that part with different values.
TWO_PARTS = {
    "GET": (1, message((3, b"key001"), (7, 1)), message((3, b"key000"), (7, 0))),
    "PUT": (1, message((2, b"v" * 16), (3, b"key001"), (4, b"v1"), (5, b"tag"), (6, 2), (7, 1), (8, 1), (9, 1)),
            message((2, b""), (3, b"key000"), (4, b"v0"), (5, b"t" * 32), (6, 6), (7, 0), (8, 0), (9, 3))),
    "GETKEYRANGE": (2, message((1, b"key001"), (2, b"key001"), (3, 0), (4, 0), (5, 0), (6, 1)),
                    message((1, b""), (2, b"z"), (3, 1), (4, 1), (5, 1), (6, 0))),
    "SETUP": (3, message((1, 5)), message((1, 6))),
    "GETLOG": (6, log(1, 2), log(2, 6)),
    "SECURITY": (7, message((2, acl(1, b"k", scope(8)))), message((2, acl(2, b"l", scope(0))))),
}


def repeated():
    for operation, (number, first, second) in TWO_PARTS.items():
        for one, two in ((first, second), (second, first), (b"", second), (second, b"")):
            yield seed(one + two, operation=operation)
            yield seed(two, operation=operation, again=PART_AGAIN, other=one)
            yield seed(two, operation=operation, again=BODY_AGAIN, other=field(number, one))
            yield seed(two, operation=operation, again=BODY_AGAIN | AFTER, other=field(number, one))
    key = message((3, b"key000"))
    for operation in ("GET", "NOOP", "SECURITY"):
        yield seed(field(7, b""), form=BODY, operation=operation, again=BODY_AGAIN, other=field(7, b""))
        yield seed(b"", form=BODY, operation=operation, again=BODY_AGAIN, other=field(7, message((2, acl(1, b"k", scope(0))))))
    for long in (b"x" * 65, b""):
        yield seed(key, again=PART_AGAIN, other=message((3, long)))
        yield seed(key, again=PART_AGAIN | AFTER, other=message((3, long)))
    for refused in (field(6, 7), field(6, b""), field(9, 0), field(3, 1), b"\x1a\x05key"):
        for after in (0, AFTER):
            yield seed(TWO_PARTS["PUT"][2], operation="PUT", again=PART_AGAIN | after, other=refused)
    for fields in ([(1, 1), (1, 1)], [(2, b"k"), (2, b"k")], [(3, 1), (3, 1)]):
        yield seed(message((2, acl(1, b"k", scope(0)) + message(*fields))), operation="SECURITY")
    for fields in ([(1, 0), (1, 0)], [(2, b""), (2, b"")], [(4, 0), (4, 1)]):
        yield seed(message((2, acl(1, b"k", scope(0) + message(*fields)))), operation="SECURITY")


def repeated_around():
    key, command = message((3, b"key000")), message((1, header_of(NUMBER, 1, TYPES["NOOP"])))
    headers = [header_of(9, 9, TYPES["PUT"], cluster=1), header_of(NUMBER, 5, TYPES["GETVERSION"], cluster=0), message((4, -1)), b"",
               message((6, 1), (9, 1), (10, 1), (12, 1), (13, 1)) * 2, message((12, 2)), message((14, 1)), message((7, 1 << 31)), b"\x20"]
    auths = [message((1, 99), (2, b"\1" * 20)), message((1, 3)), message((2, b"")), b"", message((1, 3), (1, 1)), b"\x08", field(2, 1)]
    for after in (0, AFTER):
        for header in headers:
            yield seed(key, again=HEADER_AGAIN | after, other=header)
        for auth in auths:
            yield seed(key, again=AUTH_AGAIN | after, other=auth)
        for earlier in (b"", b"\xff", command):
            yield seed(key, again=COMMAND_BYTES_AGAIN | after, other=earlier)
        for fields in (field(4, 1), field(4, 3), field(4, 1 << 31), field(4, b""), field(6, b"pin") * 2, field(7, 0)):
            yield seed(key, again=MESSAGE_FIELDS | after, other=fields)
        for fields in (field(3, b"status") * 2, field(3, 1), field(15, 1), field(2, b"") * 4000):
            yield seed(key, again=COMMAND_FIELDS | after, other=fields)
    for one, two in ((headers[0], headers[1]), (message((3, NUMBER), (7, TYPES["NOOP"])), message((4, 1))), (b"\x18", b"\x07")):
        yield seed(message((1, one), (15, b"between"), (1, two)), form=COMMAND)
        yield seed(message((1, one + field(15, 1) + two)), form=COMMAND)


def limits():
    command = message((1, header_of(NUMBER, 1, TYPES["NOOP"])))
    for length in (8192, 8193):
        room = length - len(signed(1, KEY, command)) - len(field(15, bytes(8000))) + 8000
        yield seed(signed(1, KEY, command, extra=field(15, bytes(room))), form=MESSAGE)
        yield seed(signed(1, KEY, command + field(15, bytes(room - 1))), form=MESSAGE)
    for number, most in ((2, 16), (3, 64), (4, 16), (5, 32)):
        for length in (most, most + 1):
            part = {3: b"key000", number: b"x" * length}
            yield seed(message(*sorted(part.items()), (8, 1)), operation="PUT")
    for number in (-1 << 31, (-1 << 31) - 1, (1 << 31) - 1, 1 << 31):
        yield seed(message((1, b"a"), (2, b"z"), (5, number)), operation="GETKEYRANGE")
        yield seed(message((1, header_of(NUMBER, 1, number))), form=COMMAND)
        yield seed(message((2, acl(1, b"k", scope(0, number)))), operation="SECURITY")
        yield seed(message((2, acl(1, b"k", scope(0), algorithm=number))), operation="SECURITY")
    for last in (b"\0", b"\1", b"\2"):
        yield seed(b"\x08" + b"\xff" * 9 + last, form=PART, operation="SETUP")
        yield seed(b"\x08" + b"\x80" * 9 + last, form=PART, operation="SETUP")


def main():
    folder = pathlib.Path(sys.argv[1])
    folder.mkdir(parents=True, exist_ok=True)
    for part in (key_values, ranges, tenants, logs, tables, others, states, rescues, repeated, repeated_around, limits):
        for n, data in enumerate(part()):
            (folder / f"{part.__name__}-{n:02}").write_bytes(data)


if __name__ == "__main__":
    main()
