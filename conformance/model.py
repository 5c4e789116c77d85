"""A model of the box, written from document 01, change requests 1, 2, 5 and 6, their readings (docs/DECISIONS.md) and the layouts of the device record, the
connection and the lent readings alone.

Nothing here is taken from the Rattle code, so that the two can be held against each other. Store and device record are bytes, as the host lends them.
The sections are document 01's. Numbers are signed.
"""
import dataclasses
import fractions
import functools
import hashlib
import hmac

# Document 003: messageTypes of the requests that are built, and status codes.
TYPES = {"GET": 2, "PUT": 4, "DELETE": 6, "GETNEXT": 8, "GETPREVIOUS": 10, "GETKEYRANGE": 12, "GETVERSION": 16, "SETUP": 22, "GETLOG": 24,
         "SECURITY": 26, "NOOP": 30, "FLUSHALLDATA": 32}
BUILT = {number: name for name, number in TYPES.items()}
STATUS = {"SUCCESS": 1, "HMAC_FAILURE": 2, "NOT_AUTHORIZED": 3, "VERSION_FAILURE": 4, "HEADER_REQUIRED": 6, "NOT_FOUND": 7, "VERSION_MISMATCH": 8,
          "NO_SPACE": 14, "NO_SUCH_HMAC_ALGORITHM": 15, "INVALID_REQUEST": 16, "CONNECTION_TERMINATED": 20}
REFUSALS = {"OUT_SHORT": 1, "STORE_BAD": 2, "DEVICE_BAD": 3, "CLOSED": 4, "MORE": 5, "KEY_BAD": 6, "READINGS_BAD": 7, "REPORT_BAD": 8}

READ, WRITE, DELETE, RANGE, SETUP, GETLOG, SECURITY = 0, 1, 2, 3, 4, 7, 8
PERMISSIONS = {0, 1, 2, 3, 4, 5, 7, 8, 9}

ROOM, MOST_MESSAGE, MOST_VALUE = 4096, 8192, 1024


# ---- Blocks

BLOCK, MOST_BLOCKS = 512, 128
BLANK = bytes(BLOCK)


@dataclasses.dataclass(frozen=True)
class Entry:
    key: bytes
    version: bytes = b""
    tag: bytes = b""
    algorithm: int = 0
    value: bytes = b""


def check_of(body):
    """What bytes 508-511 hold of a block whose first 508 bytes these are."""
    return sum(byte * (place + 1) for place, byte in enumerate(body)).to_bytes(4, "big")


@functools.lru_cache(4096)
def block_of(entry):
    head = bytes([1, len(entry.key), len(entry.version), len(entry.tag)]) + len(entry.value).to_bytes(2, "big") + bytes([entry.algorithm, 0])
    parts = entry.key.ljust(64, b"\0") + entry.version.ljust(16, b"\0") + entry.tag.ljust(32, b"\0") + entry.value.ljust(384, b"\0")
    body = head + parts + bytes(4)
    return body + check_of(body)


@functools.lru_cache(4096)
def entry_of(block):
    """The entry of a used block, or None where the block breaks a rule."""
    key, version, tag, value, algorithm = block[1], block[2], block[3], int.from_bytes(block[4:6], "big"), block[6]
    if not (1 <= key <= 64 and version <= 16 and tag <= 32 and value <= 384 and algorithm <= 6):
        return None
    entry = Entry(block[8:8 + key], block[72:72 + version], block[88:88 + tag], algorithm, block[120:120 + value])
    return entry if block_of(entry) == block else None


def store_length_good(length):
    return length % BLOCK == 0 and 1 <= length // BLOCK <= MOST_BLOCKS


def blocks_of(store):
    return [bytes(store[at:at + BLOCK]) for at in range(0, len(store), BLOCK)]


def entries_of(store):
    """The entries of a store, or None where its length or a block is wrong."""
    if not store_length_good(len(store)):
        return None
    blocks = blocks_of(store)
    while blocks and blocks[-1] == BLANK:
        blocks.pop()
    entries = [entry_of(block) for block in blocks]
    if None in entries or any(a.key >= b.key for a, b in zip(entries, entries[1:])):
        return None
    return entries


def store_of(entries, length):
    return b"".join(block_of(e) for e in sorted(entries, key=lambda e: e.key)).ljust(length, b"\0")


# ---- Rescue of a damaged store (change request 6)

WAS_BLANK, KEPT, CHECK_WRONG, RULE_BROKEN, KEY_TWICE = range(5)


@functools.lru_cache(4096)
def found_alone(block):
    """What a rescue reports of a block if no earlier one has its key."""
    if block == BLANK:
        return WAS_BLANK
    if block[508:] != check_of(block[:508]):
        return CHECK_WRONG
    return RULE_BROKEN if entry_of(block) is None else KEPT


def rescue(store, report):
    """0 or a refusal's number, and store and report after it."""
    if not store_length_good(len(store)):
        return 2, store, report
    blocks = blocks_of(store)
    if len(report) != len(blocks):
        return 8, store, report
    found, kept = [], {}
    for block in blocks:
        how = found_alone(block)
        if how == KEPT:
            entry = entry_of(block)
            how = KEY_TWICE if entry.key in kept else KEPT
            kept.setdefault(entry.key, entry)
        found.append(how)
    return 0, store_of(kept.values(), len(store)), bytes(found)


# ---- The device record (2,960 bytes) and the ACL rules

RECORD, ACL_PLACE, SCOPE_PLACE = 2960, 368, 72


@dataclasses.dataclass(frozen=True)
class Scope:
    permissions: frozenset
    offset: int = 0
    value: bytes = b""
    tls: bool = False


@dataclasses.dataclass(frozen=True)
class Acl:
    identity: int
    key: bytes
    scopes: tuple


@dataclasses.dataclass(frozen=True)
class Table:
    cluster: int
    acls: tuple


def scope_good(scope):
    return bool(scope.permissions) and scope.permissions <= PERMISSIONS and 0 <= scope.offset <= 64 and len(scope.value) <= 64


def acl_good(acl):
    return 1 <= len(acl.key) <= 64 and 1 <= len(acl.scopes) <= 4 and all(map(scope_good, acl.scopes))


def acls_good(acls):
    return 1 <= len(acls) <= 8 and all(map(acl_good, acls)) and len({acl.identity for acl in acls}) == len(acls)


def mask_of(permissions):
    return sum(1 << p for p in permissions)


def scope_bytes(scope):
    return (bytes([scope.offset, len(scope.value)]) + mask_of(scope.permissions).to_bytes(2, "big") + bytes([scope.tls, 0, 0, 0])
            + scope.value.ljust(64, b"\0"))


def acl_bytes(acl):
    scopes = b"".join(map(scope_bytes, acl.scopes)).ljust(4 * SCOPE_PLACE, b"\0")
    return acl.identity.to_bytes(8, "big", signed=True) + bytes([len(acl.key), len(acl.scopes)]) + bytes(6) + acl.key.ljust(64, b"\0") + scopes


def record_of(table):
    head = table.cluster.to_bytes(8, "big", signed=True) + bytes([len(table.acls)]) + bytes(7)
    return head + b"".join(map(acl_bytes, table.acls)).ljust(8 * ACL_PLACE, b"\0")


@functools.lru_cache(256)
def table_of(record):
    """The table that a device record holds, or None where it breaks a rule. Bytes that the layout doesn't use are not looked at."""
    def scope_at(at):
        mask, length = int.from_bytes(record[at + 2:at + 4], "big"), record[at + 1]
        permissions = frozenset(p for p in range(16) if mask >> p & 1)
        return None if length > 64 else Scope(permissions, record[at], bytes(record[at + 8:at + 8 + length]), record[at + 4] != 0)

    def acl_at(at):
        length, scopes = record[at + 8], record[at + 9]
        if length > 64 or scopes > 4:
            return None
        found = tuple(scope_at(at + 80 + SCOPE_PLACE * n) for n in range(scopes))
        return None if None in found else Acl(int.from_bytes(record[at:at + 8], "big", signed=True), bytes(record[at + 16:at + 16 + length]), found)

    count = record[8]
    if count > 8:
        return None
    acls = tuple(acl_at(16 + ACL_PLACE * n) for n in range(count))
    if None in acls or not acls_good(acls):
        return None
    return Table(int.from_bytes(record[:8], "big", signed=True), acls)


# ---- The lent state

@dataclasses.dataclass
class Connection:
    """`last` is the last accepted sequence, None where none was seen yet."""
    number: int
    protected: bool
    closed: bool = False
    last: int = None


@dataclasses.dataclass
class Box:
    store: bytes
    record: bytes


# The connection's 32 bytes: 0-7 number, 8 protected, 9 closed, 10 sequence seen (each: not zero is yes), 16-23 last sequence, the rest not used.

CONNECTION = 32


def word(number):
    return number.to_bytes(8, "big", signed=True)


def connect(number, protected):
    """What Connect writes."""
    return word(number) + bytes([protected != 0]) + bytes(23)


def connection_of(data):
    last = int.from_bytes(data[16:24], "big", signed=True) if data[10] else None
    return Connection(int.from_bytes(data[:8], "big", signed=True), data[8] != 0, data[9] != 0, last)


def connection_after(data, connection):
    """The bytes after an answer that left the connection so: only what changes is written."""
    before, after = connection_of(data), bytearray(data)
    if connection.closed and not before.closed:
        after[9] = 1
    if connection.last != before.last:
        after[10], after[16:24] = 1, word(connection.last)
    return bytes(after)


# ---- Lent readings (134 bytes), and f32 as its 32 bits

READINGS, READING_PLACE, MOST_NAME = 134, 22, 16
MOST_TEMPERATURES, MOST_UTILIZATIONS = 4, 2
INFINITE = 0x7f800000  # the bits of infinity without the sign: an f32 with all of them is infinite or no number


@dataclasses.dataclass(frozen=True)
class Reading:
    """`bits` are the value's as lent; `unit` is looked at of a temperature alone: 0 Celsius, else Fahrenheit."""
    name: bytes
    bits: int
    unit: int = 0


@dataclasses.dataclass(frozen=True)
class Readings:
    temperatures: tuple = ()
    utilizations: tuple = ()


def reading_bytes(reading):
    return bytes([reading.unit, len(reading.name)]) + reading.name.ljust(MOST_NAME, b"\0") + reading.bits.to_bytes(4, "big")


def readings_bytes(readings):
    temperatures, utilizations = (b"".join(map(reading_bytes, some)) for some in (readings.temperatures, readings.utilizations))
    counts = bytes([len(readings.temperatures), len(readings.utilizations)])
    return (counts + temperatures.ljust(MOST_TEMPERATURES * READING_PLACE, b"\0") + utilizations).ljust(READINGS, b"\0")


def readings_of(data):
    """The lent readings, or None where the area's length, a count or the length of a counted name is wrong. Nothing else is looked at."""
    if len(data) != READINGS or data[0] > MOST_TEMPERATURES or data[1] > MOST_UTILIZATIONS:
        return None

    def reading_at(place):
        at = 2 + READING_PLACE * place
        length = data[at + 1]
        return Reading(bytes(data[at + 2:at + 2 + length]), int.from_bytes(data[at + 18:at + 22], "big"), data[at]) if 1 <= length <= MOST_NAME else None

    temperatures = tuple(map(reading_at, range(data[0])))
    utilizations = tuple(map(reading_at, range(MOST_TEMPERATURES, MOST_TEMPERATURES + data[1])))
    return None if None in temperatures + utilizations else Readings(temperatures, utilizations)


def finite(bits):
    return bits & INFINITE != INFINITE


def number_of(bits):
    """The number that the bits of a finite f32 stand for: a whole number of quanta, the quantum a power of two."""
    exponent, fraction = bits >> 23 & 255, bits & (1 << 23) - 1
    quanta, quantum = (fraction, -149) if exponent == 0 else (fraction + (1 << 23), exponent - 150)
    return (-1) ** (bits >> 31) * quanta * fractions.Fraction(2) ** quantum


def rounded(number):
    """The bits of the f32 nearest to a rational number, of two equally near the one whose last bit is 0; infinity past the largest. 0 is positive."""
    if number == 0:
        return 0
    size = abs(number)
    quantum = max(-149, size.numerator.bit_length() - size.denominator.bit_length() - 25)  # at most the right one
    while size / fractions.Fraction(2) ** quantum >= 1 << 24:
        quantum += 1
    quanta, left = divmod(size, fractions.Fraction(2) ** quantum)
    half = fractions.Fraction(2) ** quantum / 2
    quanta += left > half or left == half and quanta % 2 == 1
    bits = quanta if quantum == -149 else (quantum + 150 << 23) + quanta - (1 << 23)
    return min(bits, INFINITE) | (number < 0) << 31


def celsius(bits):
    """Fahrenheit to Celsius: subtract 32, times 5, over 9, each step rounded. What is not finite stays so."""
    for step in (lambda x: x - 32), (lambda x: x * 5), (lambda x: x / 9):
        if not finite(bits):
            return bits
        bits = rounded(step(number_of(bits)))
    return bits


def sent_bits(reading):
    """The bits of a temperature as it would be sent."""
    return reading.bits if reading.unit == 0 else celsius(reading.bits)


# ---- Frame and fields

WORD = 1 << 64


class Refused(Exception):
    """The bytes don't decode."""


def varint(n):
    if 0 <= n < 128:
        return bytes((n,))
    n %= WORD
    out = bytearray()
    while n > 127:
        out.append(n & 127 | 128)
        n >>= 7
    return bytes(out + bytes([n]))


class F32(int):
    """The bits of an f32, as content of a field: wire type 5."""


def field(number, content):
    """A field with shortest varints: of wire type 2 for bytes, 5 for an f32, else 0."""
    if isinstance(content, F32):
        return varint(number * 8 + 5) + content.to_bytes(4, "little")
    if isinstance(content, bytes):
        return varint(number * 8 + 2) + varint(len(content)) + content
    return varint(number * 8) + varint(content)


def message(*fields):
    """The fields given as (number, content), those with no content left out."""
    return b"".join(field(number, content) for number, content in fields if content is not None)


def frame(data, value=b""):
    return b"\x46" + len(data).to_bytes(4, "big") + len(value).to_bytes(4, "big") + data + value


def read_varint(data, at):
    value = 0
    for count in range(10):
        if at == len(data) or (count == 9 and data[at] > 1):
            raise Refused
        value |= (data[at] & 127) << 7 * count
        at += 1
        if data[at - 1] < 128:
            return value, at
    raise Refused


def fields_of(data):
    """The fields of a message, each as (number, wire type, content)."""
    at, found = 0, []
    while at < len(data):
        tag, at = read_varint(data, at)
        number, wire = tag >> 3, tag & 7
        if tag >= 1 << 32 or number == 0 or wire not in (0, 1, 2, 5):
            raise Refused
        if wire == 0:
            content, at = read_varint(data, at)
        else:
            length, at = read_varint(data, at) if wire == 2 else (8 if wire == 1 else 4, at)
            if length > len(data) - at:
                raise Refused
            content, at = data[at:at + length], at + length
        found.append((number, wire, content))
    return found


# Listed fields: s int64, i int32 (also an enum that is judged later), a set the named values of an enum, b bytes, f bool, w f32, o bytes not looked into,
# r refused if present, or the kind of a message.
LISTED = {
    "Message": {4: "i", 5: "HMACauth", 6: "o", 7: "b"},
    "HMACauth": {1: "s", 2: "b"},
    "Command": {1: "Header", 2: "Body", 3: "o"},
    "Header": {1: "s", 3: "s", 4: "s", 6: "s", 7: "i", 9: "s", 10: "f", 12: {1, 3, 5, 7, 9}, 13: "s", 14: "r"},
    "Body": {1: "KeyValue", 2: "Range", 3: "Setup", 6: "GetLog", 7: "Security", 4: "r", 8: "r", 9: "r", 10: "r"},
    "KeyValue": {2: "b", 3: "b", 4: "b", 5: "b", 6: {1, 2, 3, 4, 5, 6}, 7: "f", 8: "f", 9: {1, 2, 3}},
    "Range": {1: "b", 2: "b", 3: "f", 4: "f", 5: "i", 6: "f", 8: "r"},
    "Setup": {1: "s", 5: "r"},
    "GetLog": {1: set(range(8))},
    "Security": {2: "ACL"},
    "ACL": {1: "s", 2: "b", 3: "i", 4: "Scope"},
    "Scope": {1: "s", 2: "b", 3: "i", 4: "f"},
    # for reading replies
    "Reply": {1: "Header", 2: "ReplyBody", 3: "Status"},
    "ReplyBody": {1: "KeyValue", 2: "ReplyRange", 3: "Setup", 6: "ReplyLog", 7: "Security", 4: "r", 8: "r", 9: "r", 10: "r"},
    "ReplyRange": {1: "b", 2: "b", 3: "f", 4: "f", 5: "i", 6: "f", 8: "b"},
    "ReplyLog": {2: "Utilization", 3: "Temperature", 4: "Capacity", 8: "Limits"},
    "Utilization": {1: "b", 2: "w"},
    "Temperature": {1: "b", 2: "w"},
    "Capacity": {4: "s", 5: "w"},
    "Limits": {1: "s", 2: "s", 3: "s", 4: "s", 8: "s", 9: "s", 10: "s"},
    "Status": {1: set(STATUS.values())},
}
REPEATED = {("GetLog", 1), ("Security", 2), ("ACL", 4), ("Scope", 3), ("ReplyRange", 8), ("ReplyLog", 2), ("ReplyLog", 3)}
# Change request 5: singular fields that are refused when they come again. Of any other the last value counts, and messages are merged.
ONCE = {("Body", 7), ("ReplyBody", 7), ("ACL", 1), ("ACL", 2), ("ACL", 3), ("Scope", 1), ("Scope", 2), ("Scope", 4)}
STRICT = {"Security", "ACL", "Scope"}


def decoded_field(form, wire, content):
    number = form in ("s", "i", "f") or isinstance(form, set)
    if form == "r" or wire != (0 if number else 5 if form == "w" else 2):
        raise Refused
    if form == "w":
        return F32(int.from_bytes(content, "little"))
    if not number:
        return content if form == "b" else None if form == "o" else decode(form, content)
    value = content - WORD if content >> 63 else content
    if form == "f":
        return value != 0
    if form != "s" and not -1 << 31 <= value < 1 << 31 or isinstance(form, set) and value not in form:
        raise Refused
    return value


def merge(kind, said, more):
    """The fields of a message, and those of a later occurrence put to them, at every depth."""
    for number, value in more.items():
        if number not in said:
            said[number] = value
        elif (kind, number) in ONCE:
            raise Refused
        elif (kind, number) in REPEATED:
            said[number] += value
        elif isinstance(value, dict):
            merge(LISTED[kind][number], said[number], value)
        else:
            said[number] = value


def decode(kind, data):
    """The listed fields of a message by number; a list of values where a number may repeat. Each occurrence of a field decodes by itself."""
    said = {}
    for number, wire, content in fields_of(data):
        form = LISTED[kind].get(number)
        if form is None:
            if kind in STRICT:
                raise Refused
            continue
        value = decoded_field(form, wire, content)
        merge(kind, said, {number: [value] if (kind, number) in REPEATED else value})
    return said


def decoded(kind, data):
    try:
        return decode(kind, data)
    except Refused:
        return None


def framed(data):
    """MORE, CLOSES or WHOLE, with the message and the value part. Bytes of the lengths that have not come count as 0, the lowest they can be."""
    if data[:1] not in (b"", b"\x46"):
        return "CLOSES", None, None
    head = data[:9].ljust(9, b"\0")
    length, value = int.from_bytes(head[1:5], "big"), int.from_bytes(head[5:9], "big")
    if length > MOST_MESSAGE or value > MOST_VALUE:
        return "CLOSES", None, None
    if len(data) < 9 + length + value:
        return "MORE", None, None
    return "WHOLE", data[9:9 + length], data[9 + length:9 + length + value]


# ---- Signatures

def hmac_of(key, text):
    return hmac.digest(key, text, hashlib.sha1)


def hmac_call(key, text):
    """The public call: 0 and the digest, 1 for a key over 128 bytes, else 2 for a text over 1,048,576."""
    if len(key) > 128:
        return 1, None
    return (2, None) if len(text) > 1048576 else (0, hmac_of(key, text))


# ---- Who may

def fits(scope, key):
    return scope.value == b"" or key[scope.offset:scope.offset + len(scope.value)] == scope.value


def usable(acl, protected, permission):
    """The scopes that hold the permission and allow the connection."""
    return [s for s in acl.scopes if permission in s.permissions and (protected or not s.tls)]


def permits(acl, protected, permission, key):
    return any(fits(s, key) for s in usable(acl, protected, permission))


NEEDED = {"GET": READ, "GETVERSION": READ, "GETNEXT": READ, "GETPREVIOUS": READ, "PUT": WRITE, "DELETE": DELETE, "GETKEYRANGE": RANGE,
          "SETUP": SETUP, "GETLOG": GETLOG, "SECURITY": SECURITY}
KEYED = {"GET", "GETVERSION", "GETNEXT", "GETPREVIOUS", "PUT", "DELETE"}
JUDGED = {"GET", "GETVERSION", "PUT", "DELETE"}  # by the key asked with; the others need a scope that is usable, whatever it fits (change request 2)


def permitted(acl, protected, operation, body):
    if operation not in NEEDED:
        return True
    if operation in JUDGED:
        return permits(acl, protected, NEEDED[operation], body[1][3])
    return usable(acl, protected, NEEDED[operation]) != []


# ---- Step 8

def key_value_good(operation, part):
    return (1 <= len(part.get(3, b"")) <= 64 and len(part.get(2, b"")) <= 16 and len(part.get(4, b"")) <= 16 and len(part.get(5, b"")) <= 32
            and not (operation in ("PUT", "DELETE") and part.get(7)))


def range_good(part):
    return 1 in part and 2 in part and len(part[1]) <= 64 and len(part[2]) <= 64 and 0 <= part.get(5, 32) <= 32


def asked_acls(part):
    """The ACLs of a Security as they would stand in the table, or None where one has no identity or a scope not 1 to 9 permissions."""
    acls = []
    for acl in part.get(2, []):
        scopes = []
        for scope in acl.get(4, []):
            if not 1 <= len(scope.get(3, [])) <= 9:
                return None
            scopes.append(Scope(frozenset(scope[3]), scope.get(1, 0), scope.get(2, b""), scope.get(4, False)))
        if 1 not in acl:
            return None
        acls.append(Acl(acl[1], acl.get(2, b""), tuple(scopes)))
    return tuple(acls)


# Document 003's types of a log.
UTILIZATIONS, TEMPERATURES, CAPACITIES, CONFIGURATION, STATISTICS, MESSAGES, LIMITS, DEVICE = range(8)


def log_good(part):
    types = part.get(1, [])
    return types != [] and not {CONFIGURATION, STATISTICS, MESSAGES} & set(types)


def body_fault(operation, body, value):
    """0, or the code of what is wrong with the body and the value part."""
    if len(value) > (384 if operation == "PUT" else 0):
        return 16
    if operation in ("NOOP", "FLUSHALLDATA"):
        return 0
    number = 1 if operation in KEYED else {"GETKEYRANGE": 2, "SETUP": 3, "GETLOG": 6, "SECURITY": 7}[operation]
    part = body.get(number)
    if part is None:
        return 16
    if operation in KEYED:
        return 0 if key_value_good(operation, part) else 16
    if operation == "GETKEYRANGE":
        return 0 if range_good(part) else 16
    if operation == "GETLOG":
        return 0 if log_good(part) else 16
    if operation == "SECURITY":
        acls = asked_acls(part)
        if acls is None or not acls_good(acls):
            return 16
        if any(acl.get(3, 1) != 1 for acl in part[2]):
            return 15
    return 0


# ---- What each does. Each gives a code, the body of the reply, and its value part, and changes the box.

def key_value(entry, metadata_only):
    part = message((3, entry.key or None), (4, entry.version or None), (5, entry.tag or None), (6, entry.algorithm or None))
    return 1, message((1, part)), b"" if metadata_only else entry.value


def put(box, entries, part, value):
    key, expected = part[3], part.get(4, b"")
    old = next((e for e in entries if e.key == key), None)
    if not part.get(8) and expected != (old.version if old else b""):
        return 8, b"", b""
    if old is None and len(entries) == len(box.store) // BLOCK:
        return 14, b"", b""
    new = Entry(key, part.get(2, b""), part.get(5, b""), part.get(6, 0), value)
    box.store = store_of([e for e in entries if e.key != key] + [new], len(box.store))
    return 1, message((1, b"")), b""


def delete(box, entries, part):
    old = next((e for e in entries if e.key == part[3]), None)
    if not part.get(8) and old is None:
        return 7, b"", b""
    if not part.get(8) and part.get(4, b"") != old.version:
        return 8, b"", b""
    box.store = store_of([e for e in entries if e.key != part[3]], len(box.store))
    return 1, message((1, b"")), b""


def seen(entries, acl, protected, operation):
    """The entries that an operation may come upon unasked: those whose key one usable scope fits (change request 2)."""
    return [e for e in entries if permits(acl, protected, NEEDED[operation], e.key)]


def nearest(entries, operation, key):
    """The entry next above the key or below it, in a list."""
    return [e for e in entries if e.key > key][:1] if operation == "GETNEXT" else [e for e in entries if e.key < key][-1:]


def keys_in_range(entries, part):
    start, end, most = part[1], part[2], part.get(5, 32)
    keys = [e.key for e in entries if (e.key > start or part.get(3) and e.key == start) and (e.key < end or part.get(4) and e.key == end)]
    return (keys[::-1] if part.get(6) else keys)[:most]


# What the limits show: key, value, version, tag, message, range count, identities.
SHOWN_LIMITS = ((1, 64), (2, 384), (3, 16), (4, 32), (8, MOST_MESSAGE), (9, 32), (10, 8))


def named_value(name, bits):
    """A utilization or a temperature: a value that is not finite is left out."""
    return message((1, name), (2, F32(bits) if finite(bits) else None))


def get_log(box, entries, readings, types):
    if DEVICE in types:
        return 7, b"", b""
    parts = []
    if UTILIZATIONS in types:
        parts += [(2, named_value(u.name, u.bits)) for u in readings.utilizations]
    if TEMPERATURES in types:
        parts += [(3, named_value(t.name, sent_bits(t))) for t in readings.temperatures]
    if CAPACITIES in types:
        blocks = len(box.store) // BLOCK
        parts.append((4, message((4, blocks * BLOCK), (5, F32(rounded(fractions.Fraction(len(entries), blocks)))))))
    if LIMITS in types:
        parts.append((8, message(*SHOWN_LIMITS)))
    return 1, message((6, message(*parts))), b""


def perform(box, acl, protected, readings, operation, body, value):
    entries = entries_of(box.store)
    if operation in KEYED:
        part = body[1]
        key = part[3]
        if operation == "PUT":
            return put(box, entries, part, value)
        if operation == "DELETE":
            return delete(box, entries, part)
        found = [e for e in entries if e.key == key] if operation in JUDGED else nearest(seen(entries, acl, protected, operation), operation, key)
        if not found:
            return 7, b"", b""
        if operation == "GETVERSION":
            return 1, message((1, message((4, found[0].version or None)))), b""
        return key_value(found[0], part.get(7, False))
    if operation == "GETKEYRANGE":
        keys = keys_in_range(seen(entries, acl, protected, operation), body[2])
        return 1, message((2, message(*((8, key) for key in keys)))), b""
    if operation == "GETLOG":
        return get_log(box, entries, readings, body[6][1])
    if operation == "SETUP" and 1 in body[3]:
        box.record = body[3][1].to_bytes(8, "big", signed=True) + box.record[8:]
    if operation == "SECURITY":
        box.record = record_of(Table(table_of(box.record).cluster, asked_acls(body[7])))
    return 1, b"", b""


# ---- Replies

def closing_reply(connection, code):
    return frame(message((4, 3), (7, message((1, message((3, connection.number))), (3, message((1, code)))))))


def reply(acl, connection, sequence, kind, code, body, value):
    command = message((1, message((3, connection.number), (6, sequence), (7, kind))), (2, body or None), (3, message((1, code))))
    return frame(message((4, 1), (5, message((1, acl.identity), (2, hmac_of(acl.key, command)))), (7, command)), value)


# ---- The order of judgement

def close(connection, code):
    connection.closed = True
    return closing_reply(connection, code)


def respond(box, connection, readings, data, value):
    """Steps 1 to 10: the reply to a whole message."""
    told = decoded("Message", data)
    if told is None or told.get(4) != 1 or 5 not in told or 1 not in told[5] or 7 not in told:
        return close(connection, 20)
    acl = next((acl for acl in table_of(box.record).acls if acl.identity == told[5][1]), None)
    if acl is None or told[5].get(2, b"") != hmac_of(acl.key, told[7]):
        return close(connection, 2)
    command = decoded("Command", told[7])
    if command is None:
        return reply(acl, connection, None, -1, 16, b"", b"")
    header = command.get(1, {})
    operation = BUILT.get(header.get(7))
    code, body, sent = judge(box, acl, connection, readings, header, operation, command.get(2, {}), value)
    return reply(acl, connection, header.get(4), TYPES[operation] - 1 if operation else -1, code, body if code == 1 else b"", sent)


def judge(box, acl, connection, readings, header, operation, body, value):
    """Steps 4 to 10."""
    if 3 not in header or 4 not in header:
        return 6, b"", b""
    if header.get(1, 0) != table_of(box.record).cluster:
        return 4, b"", b""
    if header[3] != connection.number or connection.last is not None and header[4] <= connection.last:
        return 16, b"", b""
    connection.last = header[4]
    if operation is None:
        return 16, b"", b""
    fault = body_fault(operation, body, value)
    if fault:
        return fault, b"", b""
    if not permitted(acl, connection.protected, operation, body):
        return 3, b"", b""
    return perform(box, acl, connection.protected, readings, operation, body, value)


# ---- The calls

@dataclasses.dataclass
class Answer:
    """A refusal's number, or 0 with the reply and the number of input bytes taken."""
    refusal: int
    reply: bytes = b""
    taken: int = 0


def answer(box, connection, lent, data, room=ROOM):
    """The answering call, with the bytes of the lent readings; it changes the box and the connection."""
    if room < ROOM:
        return Answer(1)
    if entries_of(box.store) is None:
        return Answer(2)
    if table_of(box.record) is None:
        return Answer(3)
    if connection.closed:
        return Answer(4)
    how, data_read, value = framed(data)
    if how == "MORE":
        return Answer(5)
    readings = readings_of(lent)
    if readings is None:
        return Answer(7)
    if how == "CLOSES":
        return Answer(0, close(connection, 20), len(data))
    return Answer(0, respond(box, connection, readings, data_read, value), 9 + len(data_read) + len(value))


def format_box(box, key):
    """Format: 0, or a refusal's number."""
    if not store_length_good(len(box.store)):
        return 2
    if not 1 <= len(key) <= 64:
        return 6
    box.store = bytes(len(box.store))
    box.record = record_of(Table(0, (Acl(1, key, (Scope(frozenset(PERMISSIONS)),)),)))
    return 0


def local_read(store, key):
    """("found", place of the value, value), ("not found", None, b"") or ("STORE_BAD", None, b"")."""
    entries = entries_of(store)
    if entries is None:
        return "STORE_BAD", None, b""
    for place, entry in enumerate(entries):
        if entry.key == key:
            return "found", place * BLOCK + 120, entry.value
    return "not found", None, b""


# ---- What a client sends

def signed(identity, key, command, extra=b"", extra_auth=b""):
    """A message with its signature; `extra` stands after its fields, `extra_auth` after those of HMACauth."""
    auth = message((1, identity), (2, hmac_of(key, command))) + extra_auth
    return message((4, 1), (5, auth), (7, command)) + extra


def header_of(connection, sequence, kind, cluster=None):
    return message((1, cluster), (3, connection), (4, sequence), (7, kind))
