"""Change request 1: the lent readings, GETLOG, what its reply has, and f32 as 32 bits.

The bits of floats stand here as they were worked out by a C compiler's float, each step stored; the model works them out with whole numbers.
"""
import itertools

import model
from messages import AUTH, GETLOG, HEADER, Field, tree
from model import Acl, Entry, Reading, Readings, readings_bytes
from rows import (ALL, FORBIDDEN, FULL, GOOD, INVALID, KEY, LEAST, MORE, NOT_FOUND, OK, READINGS, READINGS_BAD, STORE, TEMPERATURES, UNDECODED,
                  UTILIZATIONS, ask, connection, entry, logged, record, scope, scoped, success)

NAMES = [b"HDA", b"board", b"\0\xff\"\\", b"sixteen bytes ..", b"E", b"EN1"]
MANY = readings_bytes(Readings(tuple(Reading(name, 0x41a00000 + n, n % 2) for n, name in enumerate(NAMES[:4])),
                               tuple(Reading(name, 0x3f000000 + n) for n, name in enumerate(NAMES[4:]))))
PLACES = [2 + 22 * n for n in range(6)]


def changed(data, **changes):
    """Lent readings with bytes changed: b0=.. is byte 0."""
    data = bytearray(data)
    for name, content in changes.items():
        data[int(name[1:]):int(name[1:]) + len(content)] = content
    return bytes(data)


def lent_readings(rows):
    rows.says("The host lends up to four temperatures and two utilisations; other counts are a new call refusal 7")
    for count in (*range(0, 9), 127, 128, 254, 255):
        rows.row(f"{count} temperatures", OK if count <= 4 else READINGS_BAD, GOOD["GETLOG"], readings=changed(MANY, b0=bytes([count])))
        rows.row(f"{count} utilizations", OK if count <= 2 else READINGS_BAD, GOOD["GETLOG"], readings=changed(MANY, b1=bytes([count])))
    for lent in (5, 3), (255, 255), (0, 3), (5, 0), (4, 3), (5, 2):
        rows.row(f"{lent[0]} temperatures, {lent[1]} utilizations", READINGS_BAD, GOOD["NOOP"], readings=changed(MANY, b0=bytes(lent)))
    rows.says("names 1 to 16 bytes; other lengths are a new call refusal 7")
    for n, place in enumerate(PLACES):
        for length in 0, 1, 2, 15, 16, 17, 18, 32, 128, 255:
            rows.row(f"place {n}: a name of {length}", OK if 1 <= length <= 16 else READINGS_BAD, GOOD["GETLOG"],
                     readings=changed(MANY, **{f"b{place + 1}": bytes([length])}))
    for n in range(4):
        rows.row(f"{n} temperatures, the next one's name of 0", OK, GOOD["GETLOG"], readings=changed(MANY, b0=bytes([n]), **{f"b{PLACES[n] + 1}": b"\0"}))
        rows.row(f"{n + 1} temperatures, the last one's name of 0", READINGS_BAD, GOOD["GETLOG"],
                 readings=changed(MANY, b0=bytes([n + 1]), **{f"b{PLACES[n] + 1}": b"\0"}))
    for n in range(2):
        rows.row(f"{n} utilizations, the next one's name of 17", OK, GOOD["GETLOG"],
                 readings=changed(MANY, b1=bytes([n]), **{f"b{PLACES[4 + n] + 1}": b"\x11"}))
        rows.row(f"{n + 1} utilizations, the last one's name of 17", READINGS_BAD, GOOD["GETLOG"],
                 readings=changed(MANY, b1=bytes([n + 1]), **{f"b{PLACES[4 + n] + 1}": b"\x11"}))
    rows.says("A wrong length of the area of readings is refusal 7")
    long = MANY + bytes(300)
    for length in 0, 1, 2, 22, 111, 112, 133, 135, 136, 156, 268, 390:
        for operation in "NOOP", "GETLOG":
            rows.row(f"{length} bytes, a {operation}", READINGS_BAD, GOOD[operation], readings=long[:length])
            rows.row(f"{length} zero bytes, a {operation}", READINGS_BAD, GOOD[operation], readings=bytes(length))
    rows.row("no bytes, at NULL", READINGS_BAD, GOOD["GETLOG"], readings=b"", null=True)
    rows.row("no bytes at NULL, and no input", MORE, b"", readings=b"", null=True)
    rows.row("134 zero bytes", success(utilizations=[], temperatures=[]), GOOD["GETLOG"], readings=bytes(134))
    rows.says("Places past a count, and a name's bytes past its length, are not looked at; unit 0 is Celsius, anything else Fahrenheit")
    named = [(u.name, u.bits) for u in UTILIZATIONS]
    warm = [(b"HDA", 0x42126666), (b"board", 0x42140000)]
    for filling in b"\xff", b"\1", b"\x80":
        filled = changed(READINGS, b46=filling * 44)
        rows.row(f"places past the temperatures filled with {filling.hex()}", success(utilizations=named, temperatures=warm), GOOD["GETLOG"], readings=filled)
        none = changed(filling * 134, b0=b"\0\0")
        rows.row(f"no reading, all filled with {filling.hex()}", success(utilizations=[], temperatures=[]), GOOD["GETLOG"], readings=none)
        for place, name in (2, b"HDA"), (24, b"board"), (90, b"EN0"), (112, b"EN1"):
            rows.row(f"after {name.decode()} filled with {filling.hex()}", success(utilizations=named, temperatures=warm), GOOD["GETLOG"],
                     readings=changed(READINGS, **{f"b{place + 2 + len(name)}": filling * (16 - len(name))}))
    for unit in 0, 1, 2, 127, 128, 255:
        bits = 0x42140000 if unit else 0x42c53333
        rows.row(f"unit {unit}", success(temperatures=[warm[0], (b"board", bits)]), GOOD["GETLOG"], readings=changed(READINGS, b24=bytes([unit])))
        rows.row(f"byte {unit} where a temperature has its unit, of a utilization", success(utilizations=named), GOOD["GETLOG"],
                 readings=changed(READINGS, b90=bytes([unit]), b112=bytes([unit])))
    rows.says("a new call refusal 7, after the rest: on every answering call, changing nothing")
    bad = changed(READINGS, b0=b"\5")
    for operation, made in GOOD.items():
        rows.row(operation, READINGS_BAD, made, readings=bad)
    for name, data in (("a wrong first byte", b"\0"), ("a message too long", b"\x46\0\0\x21"), ("message length 0", model.frame(b"")),
                       ("a message that won't decode", model.frame(b"\0")), ("no signature", GOOD["GET"].at(*AUTH, f2=b"")),
                       ("a command that won't decode", GOOD["GET"].at(*HEADER, f14=1)), ("a used sequence", GOOD["NOOP"].at(*HEADER, f4=5)),
                       ("two messages", GOOD["NOOP"].bytes() * 2)):
        for how, lent in ("five temperatures", bad), ("133 bytes", READINGS[:-1]), ("a name of 0", changed(READINGS, b3=b"\0")):
            rows.row(f"{name}, {how}", READINGS_BAD, data, readings=lent, connection=connection(last=5))
    whole = GOOD["GETLOG"].bytes()
    for cut in (*range(0, 12), len(whole) - 1):
        rows.row(f"{cut} bytes of a GETLOG of {len(whole)}", MORE, whole[:cut], readings=bad)


def requests(rows):
    rows.says("Build GETLOG for types 0, 1, 2 and 6; no type, or a 3, 4 or 5, is INVALID_REQUEST at step 8, else a 7 is NOT_FOUND at step 10")
    rows.row("no type", INVALID, logged())
    fields = {0: 2, 1: 3, 2: 4, 6: 8}
    for size in range(1, 9):
        for types in itertools.combinations(range(8), size):
            wanted = INVALID if {3, 4, 5} & set(types) else NOT_FOUND if 7 in types else success(log=[fields[kind] for kind in types], parts=[6])
            rows.row(f"types {types}", wanted, logged(*types))
    for kind in 3, 4, 5, 7:
        for others in (0, 1, 2, 6), (7, 7), (0,):
            wanted = NOT_FOUND if kind == 7 else INVALID
            rows.row(f"{kind}, then {others}", wanted, logged(kind, *others))
            rows.row(f"{others}, then {kind}", wanted, logged(*others, kind))
    rows.row("7 by who may not", FORBIDDEN, logged(7), record=scoped(scope(ALL - {7})))
    rows.row("3 by who may not", INVALID, logged(3), record=scoped(scope(ALL - {7})))
    rows.row("7 and 3 by who may not", INVALID, logged(7, 3), record=scoped(scope(ALL - {7})))
    rows.says("gives each asked type once, whatever the order and number of asking")
    for size in range(1, 5):
        for types in itertools.permutations((0, 1, 2, 6), size):
            wants = success(log=sorted(fields[kind] for kind in types), utilizations=[(u.name, u.bits) for u in UTILIZATIONS] * (0 in types))
            rows.row(f"in order {types}", wants, logged(*types))
            rows.row(f"twice {types}", wants, logged(*types, *types))
            rows.row(f"each twice {types}", wants, logged(*(kind for kind in types for _ in "12")))
    for kind in 0, 1, 2, 6:
        rows.row(f"{kind} 700 times", success(log=[fields[kind]]), logged(*[kind] * 700))
    rows.says("a request's GetLog lists field 1 only: a repeated enum, one per field, another value fails step 3; other numbers are skipped")
    for n in (*range(-3, 0), *range(8, 40), 127, 128, 255, 256, 1 << 31, 1 << 32, (1 << 32) + 1, LEAST, 1 << 62):
        rows.row(f"type {n} alone", UNDECODED, logged(n))
    for n in -1, 8:
        rows.row(f"0 and {n}", UNDECODED, logged(0, n))
        rows.row(f"{n} and 3", UNDECODED, logged(n, 3))
        for operation, made in GOOD.items():
            if operation != "GETLOG":
                rows.row(f"type {n} in a {operation}", UNDECODED, made.at(7, 2, f6=tree((1, n))))
    rows.row("packed", UNDECODED, ask("GETLOG", tree((6, tree((1, b"\0\1"))))))
    rows.row("packed, empty, beside a type", UNDECODED, ask("GETLOG", tree((6, tree((1, 0), (1, b""))))))
    for longer in 1, 5, 9:
        rows.row(f"a type {longer} bytes longer than needed", success(log=[4]), ask("GETLOG", tree((6, [Field(1, 2, 0, longer)]))))
    for number in 2, 3, 4, 5, 6, 7, 8, 9:
        rows.row(f"field {number} sent alone", INVALID, ask("GETLOG", tree((6, tree((number, b""))))))
        rows.row(f"field {number} sent with type 2", success(log=[4]), logged(2).adding((number, b"\xff\xff"), (number, b""), to=GETLOG))
    for operation, made in GOOD.items():
        if operation != "GETLOG":
            for types in (), (3,), (7,), range(8):
                rows.row(f"types {tuple(types)} in a {operation}", OK, made.adding((6, tree(*((1, kind) for kind in types))), to=(7, 2)))
    rows.row("a GET with a key, GetLog alone asked", INVALID, ask("GETLOG", tree((1, tree((3, b"key0"))))))


def parts(rows):
    rows.says("The reply gives each asked type once, readings in lent order; the GetLog is there even when empty")
    temperatures = tuple(Reading(b"t%d" % n, 0x42000000 + n) for n in range(4))
    utilizations = tuple(Reading(b"u%d" % n, 0x3e000000 + n) for n in range(2))
    for warm in range(5):
        for busy in range(3):
            lent = readings_bytes(Readings(temperatures[:warm], utilizations[:busy]))
            wanted = {"temperatures": [(b"t%d" % n, 0x42000000 + n) for n in range(warm)], "utilizations": [(b"u%d" % n, 0x3e000000 + n) for n in range(busy)]}
            rows.row(f"{warm} temperatures, {busy} utilizations", success(**wanted), logged(1, 0), readings=lent)
            rows.row(f"{warm} temperatures, {busy} utilizations, 0 alone", success(parts=[6], log=[2] * bool(busy)), logged(0), readings=lent)
            rows.row(f"{warm} temperatures, {busy} utilizations, 1 alone", success(parts=[6], log=[3] * bool(warm)), logged(1), readings=lent)
    lent = readings_bytes(Readings((Reading(b"same", 1), Reading(b"same", 1), Reading(b"a", 2), Reading(b"same", 1)), (Reading(b"z", 3), Reading(b"a", 3))))
    rows.row("equal names, not sorted", success(temperatures=[(b"same", 1), (b"same", 1), (b"a", 2), (b"same", 1)], utilizations=[(b"z", 3), (b"a", 3)]),
             logged(0, 1), readings=lent)
    for name in b"\0", b"\0\0", b"a", b"\xff" * 16, b"\x80", b"\"", b"\\", b"\n", b"sixteen bytes ..", b"\xc3\xa9", b"\xc3", bytes(16), b"'", b"a\0b":
        lent = readings_bytes(Readings((Reading(name, 0x41a00000),), (Reading(name, 0x3f000000),)))
        rows.row(f"a name of {len(name)}: {name.hex()}", success(temperatures=[(name, 0x41a00000)], utilizations=[(name, 0x3f000000)]), logged(0, 1),
                 readings=lent)
    rows.says("Limits show key 64, value 384, version 16, tag 32, message 8,192, range count 32, identities 8; others are omitted")
    for store in STORE, FULL, bytes(512):
        rows.row(f"{len(store) // 512} blocks", success(log=[8], limits={1: 64, 2: 384, 3: 16, 4: 32, 8: 8192, 9: 32, 10: 8}), logged(6), store=store)
    rows.says("The capacity is 512 bytes a block. portionFull is used blocks divided by all blocks, rounded once")
    for used, blocks, bits in ((0, 1, 0x00000000), (1, 1, 0x3f800000), (1, 3, 0x3eaaaaab), (2, 3, 0x3f2aaaab), (127, 128, 0x3f7e0000),
                               (128, 128, 0x3f800000), (1, 128, 0x3c000000), (5, 7, 0x3f36db6e), (1, 127, 0x3c010204), (126, 127, 0x3f7dfbf8),
                               (64, 128, 0x3f000000), (3, 5, 0x3f19999a), (10, 11, 0x3f68ba2f), (0, 128, 0x00000000)):
        store = model.store_of(map(entry, range(used)), blocks * 512)
        rows.row(f"{used} of {blocks}", success(log=[4], capacity={4: blocks * 512, 5: bits}), logged(2), store=store)
    for blocks in range(1, 129):
        rows.row(f"{blocks // 3} of {blocks}", None, logged(2), store=model.store_of(map(entry, range(blocks // 3)), blocks * 512))
    rows.says("The reply omits field 1; of a temperature only name and current are sent; fields ascending, shortest varints, floats as wire type 5")
    command = bytes.fromhex("0a06180730013817" "1250324e" "120a0a03454e30150000803e" "120a0a03454e311500000000" "1a0a0a03484441156666 1242"
                            "1a0c0a05626f617264150000 1442" "22082080102d0000003f" "421008401080031810202040804048205008" "1a020801")
    whole = model.frame(model.message((4, 1), (5, model.message((1, 1), (2, model.hmac_of(KEY, command)))), (7, command)))
    rows.row("every type", success(reply=whole.hex(" ")), logged(6, 2, 1, 0))
    command = bytes.fromhex("0a06180730013817" "12023200" "1a020801")
    whole = model.frame(model.message((4, 1), (5, model.message((1, 1), (2, model.hmac_of(KEY, command)))), (7, command)))
    rows.row("an empty GetLog", success(reply=whole.hex(" ")), logged(0, 1), readings=bytes(134))
    rows.says("A reply fits 4,096 bytes")
    most = readings_bytes(Readings((Reading(b"n" * 16, 0x41a00000),) * 4, (Reading(b"n" * 16, 0x3f000000),) * 2))
    rows.row("as much as can be", success(log=[2, 3, 4, 8]), GOOD["GETLOG"].at(*AUTH, f1=LEAST).at(*HEADER, f3=LEAST, f4=LEAST), readings=most, store=FULL,
             record=record(Acl(LEAST, KEY, (scope(),))), connection=connection(LEAST))
    rows.says("A GETLOG changes nothing but the last sequence")
    rows.session("then a GETLOG again, a PUT, and a GETLOG", [logged(2), logged(2), GOOD["PUT"], logged(2)],
                 [success(capacity={4: 2048, 5: 0x3f000000}), success(capacity={4: 2048, 5: 0x3f000000}), OK, success(capacity={4: 2048, 5: 0x3f400000})])
    rows.session("then DELETE", [GOOD["DELETE"], logged(2)], [OK, success(capacity={4: 2048, 5: 0x3e800000})])
    rows.row("entries with no value", success(capacity={4: 1024, 5: 0x3f800000}), logged(2), store=model.store_of([Entry(b"A"), Entry(b"B")], 1024))


# Fahrenheit and what is sent of it.
FAHRENHEIT = [("0", 0x00000000, 0xc18e38e4), ("-0.0", 0x80000000, 0xc18e38e4), ("32", 0x42000000, 0x00000000), ("212", 0x43540000, 0x42c80000),
              ("98.6", 0x42c53333, 0x42140000), ("-459.67", 0xc3e5d5c3, 0xc3889334), ("-40", 0xc2200000, 0xc2200000), ("50", 0x42480000, 0x41200000),
              ("100", 0x42c80000, 0x42171c72), ("451", 0x43e18000, 0x4368c71c), ("the least subnormal", 0x00000001, 0xc18e38e4),
              ("the least subnormal, negative", 0x80000001, 0xc18e38e4), ("the largest subnormal", 0x007fffff, 0xc18e38e4),
              ("the least normal", 0x00800000, 0xc18e38e4), ("next above 32", 0x42000001, 0x360e38e4), ("next below 32", 0x41ffffff, 0xb58e38e4),
              ("2^29", 0x4e000000, 0x4d8e38e3), ("2^29 + 64, a tie", 0x4e000001, 0x4d8e38e4), ("2^29 + 128, a tie", 0x4e000002, 0x4d8e38e5),
              ("-2^29", 0xce000000, 0xcd8e38e4), ("-2^29 - 64", 0xce000001, 0xcd8e38e5), ("-2^29 - 128", 0xce000002, 0xcd8e38e5),
              ("2^24", 0x4b800000, 0x4b0e38d2), ("2^24 + 2", 0x4b800001, 0x4b0e38d3), ("0.1", 0x3dcccccd, 0xc18dc71c), ("99.9", 0x42c7cccd, 0x4216e38e),
              ("the largest whose product is finite", 0x7e4ccccc, 0x7de38e38), ("the next, whose product is not", 0x7e4ccccd, None),
              ("the least whose product is finite", 0xfe4ccccc, 0xfde38e38), ("the next below", 0xfe4ccccd, None),
              ("over 9 before times 5 would differ", 0xc1bc0000, 0xc1f6aaab), ("the same", 0x4363999a, 0x42d95555), ("the same", 0x4383999a, 0x430071c7),
              ("one rounding would differ", 0x4324e666, 0x4293aaab), ("the same", 0x430a199a, 0x426bc71c),
              ("times 5 before the subtraction would differ", 0x435bcccc, 0x42d0aaaa), ("the same", 0x42a5999a, 0x41e1c71d),
              ("times 5/9 would differ", 0x4385c000, 0x4302d555), ("the same", 0x42740000, 0x4180e38e),
              ("the largest", 0x7f7fffff, None), ("the largest negative", 0xff7fffff, None)]
ENDLESS = [("infinity", 0x7f800000), ("negative infinity", 0xff800000), ("NaN", 0x7fc00000), ("a signalling NaN", 0x7f800001), ("a negative NaN", 0xffc00000),
           ("every bit", 0xffffffff), ("NaN with other bits", 0x7fabcdef)]
KEPT = [("0", 0), ("-0.0", 0x80000000), ("the least subnormal", 1), ("the largest subnormal", 0x007fffff), ("a negative subnormal", 0x80400001),
        ("the least normal", 0x00800000), ("1", 0x3f800000), ("the largest", 0x7f7fffff), ("the largest negative", 0xff7fffff), ("37.5", 0x42160000),
        ("1/3", 0x3eaaaaab), ("bytes that differ", 0x01020304)]


def floats(rows):
    rows.says("Fahrenheit is sent as Celsius: subtract 32, times 5, over 9, each step rounded to f32 (IEEE 754, to nearest, ties to even)")
    for name, bits, sent in FAHRENHEIT + [(name, bits, None) for name, bits in ENDLESS]:
        for unit in 1, 255:
            lent = readings_bytes(Readings((Reading(b"F", bits, unit), Reading(b"C", 0x41a00000))))
            rows.row(f"{name} ({bits:08x})", success(temperatures=[(b"F", sent), (b"C", 0x41a00000)]), logged(1), readings=lent)
    rows.says("A value that isn't finite, as it would be sent, is omitted, its name still sent")
    for name, bits, sent in [(name, bits, None) for name, bits in ENDLESS] + [(name, bits, bits) for name, bits in KEPT]:
        lent = readings_bytes(Readings((Reading(b"F", 0x42000000, 1), Reading(b"C", bits), Reading(b"D", bits)), (Reading(b"U", bits, 1), Reading(b"V", bits))))
        rows.row(f"{name} ({bits:08x})", success(temperatures=[(b"F", 0), (b"C", sent), (b"D", sent)], utilizations=[(b"U", sent), (b"V", sent)]),
                 logged(0, 1), readings=lent)
