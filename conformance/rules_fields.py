"""The frame, and the fields of messages."""
import dataclasses

import model
from messages import AUTH, GETLOG, HEADER, KEYVALUE, RANGE, SECURITY, SETUP, Field, Fixed, acl_tree, encoded, long_varint, scope_tree, sub, tree
from model import Acl, Entry, frame, varint
from rows import (GOOD, INVALID, KEY, LEAST, MISMATCH, MOST, NEW_KEY, OK, ONE_SCOPE, OTHER_CLUSTER, UNBUILT, UNDECODED, UNKNOWN_HMAC, UNREAD, Says,
                  ask, connection, keyed, ranged, record, scope, secured, success)


def frames(rows):
    rows.says("A wrong first byte, message over 8,192 or value over 1,024 closes as soon as no MORE is due, with code 20, and takes the whole input")
    noop, put = GOOD["NOOP"], GOOD["PUT"]

    def sized(length):
        """A NOOP whose message has that many bytes, by an unlisted field."""
        filling = length - len(noop.signed()) - len(varint(15 * 8 + 2)) - len(varint(length))
        made = noop.adding((15, bytes(filling)))
        made = noop.adding((15, bytes(filling + length - len(made.signed()))))
        assert len(made.signed()) == length
        return made

    rows.row("a message of 8191", OK, sized(8191))
    rows.row("a message of 8192", OK, sized(8192))
    rows.row("a message of 8193", Says(20, 1, {"taken": 9 + 8193}), sized(8193).bytes())
    rows.row("a message of 8192 and a value of 1024", INVALID, sized(8192).valued(bytes(1024)))
    for length, wanted in (0, success(taken=len(put.valued(b"").bytes()))), (384, OK), (385, INVALID), (1023, INVALID), (1024, INVALID):
        rows.row(f"PUT with a value of {length}", wanted, put.valued(b"w" * length))
    rows.row("PUT with a value of 1025", Says(20, 1, {"taken": len(put.valued(bytes(1025)).bytes())}), put.valued(bytes(1025)).bytes())
    for name, first in ("45", 0x45), ("47", 0x47), ("00", 0), ("ff", 255):
        data = bytes([first]) + noop.bytes()[1:] + noop.bytes()
        rows.row(f"first byte {name}, a good frame after it", Says(20, 1, {"taken": len(data)}), data)
    rows.says("Otherwise one whole message is taken")
    for name, after in (("another frame", put.bytes()), ("half a frame", put.bytes()[:20]), ("a wrong byte", b"\0"), ("46", b"\x46"),
                        ("many bytes", bytes(9000))):
        rows.row(f"NOOP and {name}", success(taken=len(noop.bytes())), noop.bytes() + after)
        rows.row(f"PUT and {name}", success(taken=len(put.bytes())), put.bytes() + after)
    rows.row("message length 0", Says(20, 1, {"taken": 9}), frame(b""))
    rows.row("message length 0 and more", Says(20, 1, {"taken": 9}), frame(b"") + noop.bytes())
    rows.row("message length 0, a value", Says(20, 1, {"taken": 12}), frame(b"", b"abc") + noop.bytes())
    rows.row("a signature that is wrong", Says(2, 2, {"taken": len(put.bytes())}), dataclasses.replace(put, key=b"other").bytes() + b"xyz")


# Where each kind of message stands: an operation whose good request holds it, and the way to it.
PLACES = {"Message": ("PUT", ()), "HMACauth": ("PUT", AUTH), "Command": ("PUT", (7,)), "Header": ("PUT", HEADER), "Body": ("PUT", (7, 2)),
          "KeyValue": ("PUT", KEYVALUE), "Range": ("GETKEYRANGE", RANGE), "Setup": ("SETUP", SETUP), "GetLog": ("GETLOG", GETLOG),
          "Security": ("SECURITY", SECURITY),
          "ACL": ("SECURITY", SECURITY + (2,)), "Scope": ("SECURITY", SECURITY + (2, 4))}
UNUSED = {kind: ask("NOOP", sub(sub(GOOD[PLACES[kind][0]].message, 7), 2)) for kind in ("KeyValue", "Range", "Setup", "GetLog", "Security", "ACL", "Scope")}


def refused_at(kind):
    return UNREAD if kind in ("Message", "HMACauth") else UNDECODED


def hosts(kind):
    """Requests that hold such a message: one that uses it, and one that doesn't. With the way to it."""
    operation, way = PLACES[kind]
    yield operation, GOOD[operation], way
    if kind in UNUSED:
        yield "NOOP", UNUSED[kind], way


def varints(rows):
    rows.says("Varints: one to ten bytes, a tenth byte is 0 or 1, longer than needed is allowed")
    def sequenced(raw):
        """A NOOP whose sequence stands as raw bytes."""
        return GOOD["NOOP"].at(*HEADER, f4=None).adding(raw, to=HEADER)

    for longer in range(10):
        one = success(**{"field 6": 1, "last": 1})
        rows.row(f"sequence {longer} bytes longer than needed", one, sequenced(varint(32) + long_varint(1, longer)))
        rows.row(f"its tag {longer} bytes longer than needed", one, sequenced(long_varint(32, longer) + b"\1"))
    for text, value in (("ffffffffffffffffff00", MOST), ("ffffffffffffffffff01", -1), ("80808080808080808000", 0), ("80808080808080808001", LEAST),
                        ("81808080808080808000", 1),
                        ("ffffffffffffffff7f", MOST)):
        rows.row(f"sequence {text}", success(**{"field 6": value, "last": value}), sequenced(varint(32) + bytes.fromhex(text)))
    for text in ("80808080808080808002", "ffffffffffffffffff02", "ffffffffffffffffff7f", "80808080808080808080", "8080808080808080808000",
                 "8080808080808080808001",
                 "ffffffffffffffffff80", "ffffffffffffffffff81", "80", "ff", ""):
        data = bytes.fromhex(text)
        rows.row(f"sequence {text or 'of no bytes'}", UNDECODED, sequenced(varint(32) + data))
        for kind in PLACES:
            if kind not in model.STRICT:
                for operation, host, way in hosts(kind):
                    rows.row(f"{kind} of a {operation}: an unlisted number {text or 'of no bytes'}", refused_at(kind),
                             host.adding(varint(20 * 8) + data, to=way))
                    rows.row(f"{kind} of a {operation}: an unlisted length {text or 'of no bytes'}", refused_at(kind),
                             host.adding(varint(20 * 8 + 2) + data, to=way))
                    if text:
                        rows.row(f"{kind} of a {operation}: a tag {text}", refused_at(kind), host.adding(data, to=way))
    for kind in PLACES:
        operation, host, way = next(hosts(kind))
        if way:
            for longer in 1, 2, 8:
                rows.row(f"the length of a {kind} {longer} bytes longer", OK, lengthened(host, way, long_form=longer))
                rows.row(f"the tag of a {kind} {longer} bytes longer", OK, lengthened(host, way, long_tag=longer))


def lengthened(host, way, **form):
    """The request with the field at `way` in a longer form."""
    def walk(items, way):
        return [item if not isinstance(item, Field) or item.number != way[0] else
                (item._replace(**form) if len(way) == 1 else item._replace(content=walk(item.content, way[1:]))) for item in items]
    return dataclasses.replace(host, message=walk(host.message, way))


def tags(rows):
    rows.says("Field numbers 1 to 2^29-1, tags at most 32 bits, wire types 0, 1, 2, 5")
    for kind in PLACES:
        for operation, host, way in hosts(kind):
            allowed, refused = (UNDECODED if kind in model.STRICT else OK), refused_at(kind)
            name = f"{kind} of a {operation}"
            for number in 15 if kind == "Header" else 16, 2047, 2048, (1 << 29) - 1:
                for wire, content in (0, b"\1"), (1, bytes(8)), (2, b"\3abc"), (5, bytes(4)):
                    rows.row(f"{name}: number {number}, wire type {wire}", allowed, host.adding(varint(number * 8 + wire) + content, to=way))
            for text in ("tag", 1 << 32), ("tag", (1 << 32) + 160), ("tag", 1 << 35), ("tag", (1 << 64) - 8), ("tag", (1 << 63) + 160):
                rows.row(f"{name}: a tag of {text[1]}", refused, host.adding(varint(text[1]) + b"\1", to=way))
            for wire, content in (0, b"\1"), (1, bytes(8)), (2, b"\0"), (5, bytes(4)):
                rows.row(f"{name}: number 0, wire type {wire}", refused, host.adding(bytes([wire]) + content, to=way))
            for wire in 3, 4, 6, 7:
                for number in 20, 1, 7:
                    for after in b"", b"\0", bytes(4), bytes(8), b"\2ab":
                        rows.row(f"{name}: number {number}, wire type {wire}, then {after.hex() or 'nothing'}", refused,
                                 host.adding(varint(number * 8 + wire) + after, to=way))
            rows.row(f"{name}: an empty group", refused, host.adding(varint(20 * 8 + 3) + varint(20 * 8 + 4), to=way))


def wire_types(rows):
    contents = {0: 1, 5: Fixed(b"\1\0\0\0"), 1: Fixed(b"\1\0\0\0\0\0\0\0"), 2: b"\1"}
    for kind in PLACES:
        for number, form in model.LISTED[kind].items():
            right = None if form == "r" else 0 if isinstance(form, set) or form in ("s", "i", "f") else 2
            rows.says("Listed fields with another wire type are refused" if right is not None else "r = refused if present")
            for wire, content in contents.items():
                if wire != right:
                    for operation, host, way in hosts(kind):
                        rows.row(f"{kind} {number} of a {operation}, wire type {wire}", refused_at(kind), host.at(*way, **{f"f{number}": content}))
    rows.says("Permissions come one per field")
    rows.row("packed", UNDECODED, secured(acl_tree(1, NEW_KEY, tree((3, b"\0\1")))))
    rows.row("packed, empty", UNDECODED, secured(acl_tree(1, NEW_KEY, tree((3, 0), (3, b"")))))
    rows.row("two fields", success(acls=(Acl(1, NEW_KEY, (scope({0, 1}),)),)), secured(acl_tree(1, NEW_KEY, scope_tree([0, 1]))))


def repeating(rows):
    rows.says("Unlisted numbers are framed and skipped: they may repeat")
    for kind in PLACES:
        if kind not in model.STRICT:
            for operation, host, way in hosts(kind):
                rows.row(f"{kind} of a {operation}: one field three times", OK, host.adding((20, 1), (20, b"x"), (20, 1), to=way))


def cut(rows):
    rows.says("Cut fields are refused")
    cuts = ["08", "a001", "a0", "a201", "a2010161"[:-2], "a20102" "61", "a20180", "a201ff", "a901" + "00" * 7, "a901", "ad01" + "00" * 3, "ad01",
            "a201" + "ffffffff0f" + "00",
            "a201" + "ffffffffffffffffff01" + "00", "a201" + "80808080808080808001" + "00", "a201" + "ffffffffffffffff7f", "a201" + "8080808010",
            "a201" + "8080808008"]
    for kind in PLACES:
        for operation, host, way in hosts(kind):
            for text in cuts:
                rows.row(f"{kind} of a {operation} ends with {text}", refused_at(kind), host.adding(bytes.fromhex(text), to=way))
    whole = GOOD["PUT"]
    data = whole.signed()
    for end in range(len(data)):
        rows.row(f"a message cut to {end} of {len(data)} bytes, the frame right", None, frame(data[:end], whole.value))
    command = encoded(sub(whole.message, 7))
    for end in range(len(command)):
        rows.row(f"a command cut to {end} of {len(command)} bytes, signed again", None, dataclasses.replace(whole.at(f7=command[:end]), value=whole.value))


def unlisted(rows):
    for kind in PLACES:
        strict = kind in model.STRICT
        rows.says("inside Security, ACL and Scope, where they refuse the command" if strict else "Unlisted numbers are framed and skipped")
        for number in (n for n in range(1, 40) if n not in model.LISTED[kind]):
            for operation, host, way in hosts(kind):
                for name, content in ("a number", 1), ("four bytes", Fixed(b"\xff" * 4)), ("eight bytes", Fixed(b"\xff" * 8)), ("bytes", b"\x07\xff"):
                    rows.row(f"{kind} {number} of a {operation}: {name}", UNDECODED if strict else OK, host.adding((number, content), to=way))
    rows.says("6 bytes not looked into; 3 m status (not looked into)")
    for name, content in (("nothing", b""), ("a cut field", b"\x08"), ("zeros", bytes(9)), ("wire type 3", b"\x0b"), ("a field twice", b"\x08\1\x08\1"),
                          ("8,000 bytes", b"\xff" * 8000)):
        rows.row(f"Message 6 with {name}", OK, GOOD["NOOP"].adding((6, content)))
        rows.row(f"status with {name}", OK, GOOD["NOOP"].adding((3, content), to=(7,)))
    for n in range(0, 256, 5):
        rows.row(f"an unlisted message with byte {n}", OK, GOOD["NOOP"].adding((20, bytes([n, 255 - n])), to=HEADER))


INT32 = [("2^31-1", (1 << 31) - 1, True), ("2^31", 1 << 31, False), ("-2^31", -1 << 31, True), ("-2^31-1", (-1 << 31) - 1, False),
         ("2^32-1", (1 << 32) - 1, False),
         ("2^32", 1 << 32, False), ("2^32+1", (1 << 32) + 1, False), ("2^63-1", MOST, False), ("-2^63", LEAST, False), ("-1", -1, True),
         ("2^32-2^31", (1 << 32) - (1 << 31), False)]


def numbers(rows):
    rows.says("An int32 or enum outside -2^31 to 2^31-1 is refused")
    for name, n, inside in INT32:
        rows.row(f"authType {name}", UNREAD, GOOD["NOOP"].at(f4=n))
        rows.row(f"messageType {name}", UNBUILT if inside else UNDECODED, GOOD["NOOP"].at(*HEADER, f7=n))
        rows.row(f"maxReturned {name}", INVALID if inside else UNDECODED, ranged(f5=n))
        rows.row(f"maxReturned {name} in a NOOP", OK if inside else UNDECODED, UNUSED["Range"].at(*RANGE, f5=n))
        rows.row(f"hmacAlgorithm {name}", UNKNOWN_HMAC if inside else UNDECODED, secured(acl_tree(1, NEW_KEY, ONE_SCOPE, algorithm=n)))
        rows.row(f"permission {name}", INVALID if inside else UNDECODED, secured(acl_tree(1, NEW_KEY, scope_tree([0, n]))))
        rows.row(f"type {name} of a log", UNDECODED, GOOD["GETLOG"].adding((1, n), to=GETLOG))
        rows.row(f"permission {name} in a NOOP", OK if inside else UNDECODED, UNUSED["Scope"].at(*SECURITY, 2, 4, f3=n))
        for what, way, number, host in (("priority", HEADER, 12, GOOD["NOOP"]), ("algorithm", KEYVALUE, 6, GOOD["PUT"]),
                                        ("synchronization", KEYVALUE, 9, GOOD["PUT"])):
            rows.row(f"{what} {name}", UNDECODED, host.at(*way, **{f"f{number}": n}))
    rows.says("Integers are 64-bit two's complement")
    for n in 0, 1, -1, 127, 128, MOST, LEAST, 1 << 62, (1 << 32) - 1, 1 << 32, -1 << 31:
        for number, what in (6, "ackSequence"), (9, "timeout"), (13, "TimeQuanta"):
            rows.row(f"{what} {n}", OK, GOOD["NOOP"].at(*HEADER, **{f"f{number}": n}))
        rows.row(f"identity {n}", OK, GOOD["GET"].at(*AUTH, f1=n), record=record(Acl(n, KEY, (scope(),))))
        rows.row(f"connectionID {n}", OK, GOOD["NOOP"].at(*HEADER, f3=n), connection=connection(n))
        rows.row(f"sequence {n}", OK, GOOD["NOOP"].at(*HEADER, f4=n))
        rows.row(f"newClusterVersion {n}", success(cluster=n), ask("SETUP", tree((3, tree((1, n))))))
        rows.row(f"clusterVersion {n}", OK, GOOD["NOOP"].at(*HEADER, f1=n), record=record(cluster=n))
        rows.row(f"an ACL's identity {n}", success(acls=(Acl(n, NEW_KEY, (scope({0, 8}),)),)), secured(acl_tree(n, NEW_KEY, ONE_SCOPE)))
    rows.says("a bool is true if not zero")
    for n in 0, 1, 2, 128, 1 << 31, 1 << 32, MOST, LEAST, -1:
        true = n != 0
        rows.row(f"metadataOnly {n} of a GET", success(value=b"" if true else b"value of key0"), keyed("GET", f7=n))
        rows.row(f"metadataOnly {n} of a PUT", INVALID if true else OK, GOOD["PUT"].at(*KEYVALUE, f7=n))
        rows.row(f"force {n}", OK if true else MISMATCH, keyed("PUT", b"key0", b"w", f8=n))
        rows.row(f"earlyExit {n}", OK, GOOD["NOOP"].at(*HEADER, f10=n))
        rows.row(f"startKeyInclusive {n}", success(keys=[b"key0"] * true + [b"key2"]), ranged(b"key0", b"z", f3=n))
        rows.row(f"endKeyInclusive {n}", success(keys=[b"key0"] + [b"key2"] * true), ranged(b"a", b"key2", f4=n))
        rows.row(f"reverse {n}", success(keys=[b"key2", b"key0"] if true else [b"key0", b"key2"]), ranged(f6=n))
        rows.row(f"TlsRequired {n}", success(acls=(Acl(1, NEW_KEY, (scope({0}, tls=true),)),)), secured(acl_tree(1, NEW_KEY, scope_tree([0], tls=n))))
    rows.says("Enum values not named here refuse the command, except messageType, hmacAlgorithm and permission, judged later")
    for n in range(-2, 13):
        rows.row(f"priority {n}", OK if n in (1, 3, 5, 7, 9) else UNDECODED, GOOD["NOOP"].at(*HEADER, f12=n))
        rows.row(f"synchronization {n}", OK if n in (1, 2, 3) else UNDECODED, GOOD["PUT"].at(*KEYVALUE, f9=n))
        rows.row(f"synchronization {n} in a NOOP", OK if n in (1, 2, 3) else UNDECODED, UNUSED["KeyValue"].at(*KEYVALUE, f9=n))
        rows.row(f"algorithm {n}", OK if 1 <= n <= 6 else UNDECODED, GOOD["PUT"].at(*KEYVALUE, f6=n))
        rows.row(f"algorithm {n} in a NOOP", OK if 1 <= n <= 6 else UNDECODED, UNUSED["KeyValue"].at(*KEYVALUE, f6=n))
        rows.row(f"hmacAlgorithm {n}", OK if n == 1 else UNKNOWN_HMAC, secured(acl_tree(1, NEW_KEY, ONE_SCOPE, algorithm=n)))
        rows.row(f"hmacAlgorithm {n} in a NOOP", OK, UNUSED["ACL"].at(*SECURITY, 2, f3=n))
        rows.row(f"hmacAlgorithm {n} of the second ACL", OK if n == 1 else UNKNOWN_HMAC,
                 secured(acl_tree(1, NEW_KEY, ONE_SCOPE), acl_tree(2, NEW_KEY, ONE_SCOPE, algorithm=n)))
        rows.row(f"type {n} of a log in a NOOP", OK if 0 <= n <= 7 else UNDECODED, UNUSED["GetLog"].at(*GETLOG, f1=n))
        rows.row(f"authType {n}", OK if n == 1 else UNREAD, GOOD["NOOP"].at(f4=n))
    rows.says("Absent bytes are empty, flags false, clusterVersion and offset 0")
    rows.row("clusterVersion absent, the device's 0", OK, GOOD["NOOP"].at(*HEADER, f1=None))
    rows.row("clusterVersion absent, the device's 1", OTHER_CLUSTER, GOOD["NOOP"].at(*HEADER, f1=None), record=record(cluster=1))
    rows.row("offset absent", success(acls=(Acl(1, NEW_KEY, (scope({0}, 0, b"k"),)),)), secured(acl_tree(1, NEW_KEY, scope_tree([0], None, b"k"))))
    rows.row("newVersion, tag, algorithm and value absent", success(entry=Entry(b"A")), keyed("PUT", b"A"), store=bytes(512))
    rows.row("the same over an old entry", success(entry=Entry(b"key0")), keyed("PUT", b"key0", f4=b"v0"))
