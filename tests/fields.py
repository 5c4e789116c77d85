#!/usr/bin/env python3
"""What crates/program_fields is run on (its stdin) and must write (its stdout), and what crates/program_writers must write.

  tests/fields.py              writes these files
  tests/fields.py --check      says whether they are as this script makes them
  tests/fields.py --hex NAME   prints the bytes of a message of messages.txt

Each line of program_fields's stdin is a kind, as two hex digits, and the bytes of a message of that kind, in hex. Each line of its stdout is what
the message says: n=VALUE; a number, n:HEX; bytes, n#HEX; a float, n{..} a message, each occurrence in its place, or 'refused'. program_writers writes the
messages of the list WRITTEN, in hex.

The bytes come from `protoc --encode` for the messages of messages.txt, whose lines are worked out here from their text and from kinetic.proto;
and from the list RAW below, whose lines are worked out by hand. A message in parts is the concatenation of what protoc makes of each: its line has the
parts' fields, and these, merged by change request 5, must be what `protoc --decode` reads in the concatenation. Nothing here is taken from the program.
protoc is Debian's protobuf-compiler; if it is missing it is installed by that name.
"""
import ast, os, re, struct, sys

HERE = os.path.dirname(os.path.abspath(__file__))
CRATES = os.path.join(HERE, "..", "crates")
sys.path.insert(0, os.path.join(HERE, "..", "conformance"))

import protobuf

# The kinds in program_fields's order, and protoc's names of those that stand inside another message.
KINDS = ["Message", "HmacAuth", "Command", "Header", "Body", "KeyValue", "Range", "Setup", "Security", "Acl", "Scope",
         "ReplyCommand", "ReplyBody", "ReplyRange", "Status"]
INSIDE = {"HmacAuth": "Message.HMACauth", "Acl": "Command.Security.ACL", "Scope": "Command.Security.ACL.Scope",
          **{kind: f"Command.{kind}" for kind in ("Header", "Body", "KeyValue", "Range", "Setup", "Security", "Status")}}

# Document 01, "Frame and fields", of the messages of kinetic.proto.
REFUSED = {("Header", 14), ("Body", 4), ("Body", 8), ("Body", 9), ("Body", 10), ("Range", 8), ("Setup", 5)}
OPAQUE = {("Message", 6), ("Command", 3)}
STRICT_UNLISTED = {("Security", 3), ("Security", 4), ("Security", 5), ("Security", 6), ("ACL", 5)}
SKIPPED = {("Status", 2), ("Status", 3)}
# Document 02, CR 1: "a request's GetLog lists field 1 only"; of a reply's, "the fields of document 003 that a built reply sends are listed"
GETLOG = {False: {"GetLog": {1}},
          True: {"GetLog": {2, 3, 4, 8}, "Utilization": {1, 2}, "Temperature": {1, 2}, "Capacity": {4, 5}, "Limits": {1, 2, 3, 4, 8, 9, 10}}}
NAMED = {("Header", 12): {1, 3, 5, 7, 9}, ("KeyValue", 6): {1, 2, 3, 4, 5, 6}, ("KeyValue", 9): {1, 2, 3},
         ("GetLog", 1): {0, 1, 2, 3, 4, 5, 6, 7}, ("Status", 1): {1, 2, 3, 4, 6, 7, 8, 14, 15, 16, 20}}
# "For reading replies, Range 8 is a repeated b and Status 1 is e code"
AS_REPLY = {("Range", 8), ("Command", 3)}
REPEATED = {("GetLog", 1), ("Security", 2), ("ACL", 4), ("Scope", 3), ("Range", 8), ("GetLog", 2), ("GetLog", 3)}
# Document 02, CR 5: "Security sent twice, a second singular field inside it" stay refused
ONCE = {("Body", 7), ("ACL", 1), ("ACL", 2), ("ACL", 3), ("Scope", 1), ("Scope", 2), ("Scope", 4)}


class Refused(Exception):
    pass


def parsed(words):
    """A text-format message: a list of names and values, each a word or again a list."""
    found = []
    while words and words[0] != "}":
        name = words.pop(0)
        if words[0] == ":":
            words.pop(0)
            found.append((name, words.pop(0)))
        else:
            words.pop(0)
            found.append((name, parsed(words)))
            words.pop(0)
    return found


def says(message, said, reply):
    """The listed fields of a message, in the order of their numbers, as protoc writes them: a number with its text, or with again a list."""
    shown = []
    for name, value in said:
        number, kind = FIELDS[message][name]
        place = (message, number)
        if place in STRICT_UNLISTED or (place in REFUSED and not (reply and place in AS_REPLY)):
            raise Refused
        if place in SKIPPED or number not in GETLOG[reply].get(message, {number}):
            continue
        if place in OPAQUE and not (reply and place in AS_REPLY):
            shown.append((number, ":;"))
        elif kind in FIELDS:
            shown.append((number, says(kind, value, reply)))
        elif kind in ("bytes", "string"):
            shown.append((number, f":{ast.literal_eval('b' + value).hex()};"))
        elif kind == "float":
            shown.append((number, f"#{struct.pack('<f', float(value)).hex()};"))
        else:
            n = int(value == "true") if kind == "bool" else ENUMS[kind][value] if kind in ENUMS else int(value)
            if place in NAMED and n not in NAMED[place]:
                raise Refused
            shown.append((number, f"={n};"))
    return sorted(shown, key=lambda field: field[0])


def line_of(shown):
    return "".join(f"{number}{{{line_of(content)}}}" if isinstance(content, list) else f"{number}{content}" for number, content in shown)


def merged(message, shown):
    """What counts of the fields of several parts: the last value, and messages merged."""
    kinds, joined = dict(FIELDS[message].values()), {}
    for number, content in shown:
        if (message, number) in REPEATED:
            joined.setdefault(number, []).append((number, content))
            continue
        before = joined.get(number, [])
        if before and (message, number) in ONCE:
            raise Refused
        joined[number] = [(number, merged(kinds[number], (before[0][1] if before else []) + content) if isinstance(content, list) else content)]
    return [field for _, fields in sorted(joined.items()) for field in fields]


def words_of(text):
    return parsed(re.findall(r'"(?:[^"\\]|\\.)*"|[{}:]|[^\s{}:]+', text))


def encoded(message, text):
    protobuf.installed()
    return protobuf.protoc("encode", text.encode(), message, "kinetic.proto")


def message_line(kind, parts, data):
    """The line of a message in parts; what counts of it is held to what protoc reads in the whole."""
    message, reply = INSIDE.get(kind, kind.replace("Reply", "")).split(".")[-1], kind.startswith("Reply")
    try:
        shown = [field for text in parts for field in says(message, words_of(text), reply)]
        counted = merged(message, shown)
    except Refused:
        return "refused"
    read = protobuf.protoc("decode", data, INSIDE.get(kind, kind.replace("Reply", "")), "kinetic.proto").decode()
    assert counted == says(message, words_of(read), reply), (kind, counted, read)
    return line_of(shown)


def messages():
    for section in re.split(r"^== ", open(os.path.join(HERE, "messages.txt")).read(), flags=re.M)[1:]:
        head, text = section.split("\n", 1)
        name, kind = head.split()
        parts = re.split(r"^--$", text, flags=re.M)
        data = b"".join(encoded(INSIDE.get(kind, kind.replace("Reply", "")), part) for part in parts)
        yield name, kind, data, message_line(kind, parts, data)


# Worked by hand: a kind, bytes, and the line.
RAW = [
    # The public Protocol Buffers encoding page: Test1 with a = 150, Test2 with b = "testing", Test3 with an embedded Test1 in field 3, the
    # packed numbers 3, 270 and 86942 in field 6, where a Header has a single number and so another wire type
    ("Setup", "089601", "1=150;"),
    ("HmacAuth", "120774657374696e67", "2:74657374696e67;"),
    ("Body", "1a03089601", "3{1=150;}"),
    ("Header", "3206038e029ea705", "refused"),
    # the same page: -2 as an int64
    ("Setup", "08feffffffffffffffff01", "1=-2;"),
    # document 01: -1 is FF nine times, then 01
    ("Setup", "08ffffffffffffffffff01", "1=-1;"),
    ("Setup", "0880808080808080808001", "1=-9223372036854775808;"),
    ("Setup", "08ffffffffffffffff7f", "1=9223372036854775807;"),
    # longer than needed: the number, the tag, a length
    ("Setup", "08968100", "1=150;"),
    ("Setup", "0896818080808080808000", "1=150;"),
    ("Setup", "8880808080808080800000", "1=0;"),
    ("HmacAuth", "928000878080808080808080007465" "7374696e67", "2:74657374696e67;"),
    # a tenth byte of 2, an eleventh byte, a cut varint, no value
    ("Setup", "0880808080808080808002", "refused"),
    ("Setup", "088080808080808080808000", "refused"),
    ("Setup", "0896", "refused"),
    ("Setup", "08", "refused"),
    # a tag of 2^32, field number 0, wire types 3, 4, 6, 7
    ("Setup", "808080801001", "refused"),
    ("Setup", "0001", "refused"),
    ("Setup", "13", "refused"),
    ("Setup", "14", "refused"),
    ("Setup", "16", "refused"),
    ("Setup", "17", "refused"),
    # the largest field number, 2^29 - 1, not listed: a varint, eight bytes, bytes, four bytes
    ("Setup", "f8ffffff0f01" "0801", "1=1;"),
    ("Setup", "f9ffffff0f0102030405060708" "0801", "1=1;"),
    ("Setup", "faffffff0f03010203" "0801", "1=1;"),
    ("Setup", "fdffffff0f01020304" "0801", "1=1;"),
    # the same cut
    ("Setup", "0801" "f9ffffff0f01020304050607", "refused"),
    ("Setup", "0801" "faffffff0f030102", "refused"),
    ("Setup", "0801" "fdffffff0f010203", "refused"),
    # another wire type
    ("Setup", "0d01000000", "refused"),
    ("HmacAuth", "1001", "refused"),
    # int32: 2^31 - 1, -2^31, 2^31, 2^32 - 1, -2^31 - 1
    ("Message", "20ffffffff07", "4=2147483647;"),
    ("Message", "2080808080f8ffffffff01", "4=-2147483648;"),
    ("Message", "208080808008", "refused"),
    ("Message", "20ffffffff0f", "refused"),
    ("Message", "20fffffffff7ffffffff01", "refused"),
    # a bool is true if not zero: any of its 64 bits
    ("KeyValue", "3802", "7=1;"),
    ("KeyValue", "3880808080808080808001", "7=1;"),
    ("KeyValue", "388000", "7=0;"),
    # enums with their named values
    ("Header", "6003", "12=3;"),
    ("Header", "6002", "refused"),
    ("KeyValue", "3006", "6=6;"),
    ("KeyValue", "3007", "refused"),
    ("KeyValue", "4803", "9=3;"),
    ("KeyValue", "4800", "refused"),
    # a field 15 that is not listed: skipped, but inside Security, ACL and Scope
    ("Command", "7801" "12067801" "0a027801" "7801", "2{1{}}"),
    ("Command", "12" "0a" "3a08" "1206" "2204" "1800" "1801", "2{7{2{4{3=0;3=1;}}}}"),
    ("Command", "12" "0a" "3a08" "1206" "2204" "1800" "7801", "refused"),
    ("Command", "12" "0a" "3a08" "1206" "2202" "1800" "7801", "refused"),
    ("Command", "12" "0a" "3a08" "1204" "2202" "1800" "7801", "refused"),
    ("Command", "12" "0a" "3a06" "1204" "2202" "1800" "7801", "2{7{2{4{3=0;}}}}"),
    # a packed permission list
    ("Scope", "1a020001", "refused"),
    # GetLog: types 1, 0 and 1 among unlisted fields of each wire type (2, 7, 9, 15, 15), none; a type of 8, of -1; packed types, types as
    # four and as eight bytes
    ("Body", "321d" "0801" "12020801" "0800" "3a0178" "4d01020304" "790102030405060708" "7801" "0801", "6{1=1;1=0;1=1;}"),
    ("Body", "3200", "6{}"),
    ("Body", "3204" "0801" "0808", "refused"),
    ("Body", "320b" "08ffffffffffffffffff01", "refused"),
    ("Body", "3203" "0a0101", "refused"),
    ("Body", "3205" "0d01000000", "refused"),
    ("Body", "3209" "090100000000000000", "refused"),
    # a reply's GetLog: a temperature of 25.5, a NaN with its bits as they came, a utilisation with no value; a float as a number, as eight
    # bytes, as bytes, cut; a name as a float
    ("ReplyBody", "320c" "1a0a" "0a03484441" "150000cc41", "6{3{1:484441;2#0000cc41;}}"),
    ("ReplyBody", "3207" "1a05" "15010080ff", "6{3{2#010080ff;}}"),
    ("ReplyBody", "3207" "1205" "0a03484441", "6{2{1:484441;}}"),
    ("ReplyBody", "3204" "1a02" "1001", "refused"),
    ("ReplyBody", "320b" "1a09" "110102030405060708", "refused"),
    ("ReplyBody", "3208" "1a06" "120401020304", "refused"),
    ("ReplyBody", "3206" "1a04" "15010203", "refused"),
    ("ReplyBody", "3207" "1a05" "0d01020304", "refused"),
    # a field twice, and one between that is not listed: each occurrence is read
    ("Setup", "0801" "0802", "1=1;1=2;"),
    ("Setup", "0801" "7801" "0800", "1=1;1=0;"),
    ("HmacAuth", "120161" "1200", "2:61;2:;"),
    ("Message", "3a0108" "3a0100" "32017a" "3200", "7:08;7:00;6:;6:;"),
    ("Command", "0a021801" "7801" "0a022002", "1{3=1;}1{4=2;}"),
    ("Body", "3200" "3200", "6{}6{}"),
    ("Body", "32020801" "32020800", "6{1=1;}6{1=0;}"),
    ("ReplyBody", "320c" "1a0a" "1501020304" "1505060708", "6{3{2#01020304;2#05060708;}}"),
    # each occurrence must decode: a priority of 2 first and last, another wire type first, a cut header first, a header cut in two
    ("Header", "6002" "6005", "refused"),
    ("Header", "6005" "6002", "refused"),
    ("Setup", "0d01000000" "0801", "refused"),
    ("Command", "0a0118" "0a021801", "refused"),
    ("Command", "0a0118" "0a0101", "refused"),
    # Security twice, a field twice inside it; scopes and permissions may
    ("Body", "3a00" "3a00", "refused"),
    ("Body", "3a00" "1a00" "3a00", "refused"),
    ("Acl", "0801" "0801", "refused"),
    ("Acl", "120161" "120161", "refused"),
    ("Acl", "1801" "1801", "refused"),
    ("Scope", "0800" "0800", "refused"),
    ("Scope", "1200" "1200", "refused"),
    ("Scope", "2000" "2000", "refused"),
    ("Acl", "2200" "22021800", "4{}4{3=0;}"),
    ("Scope", "1800" "1800", "3=0;3=0;"),
]


# What program_writers writes: a type of kinetic.proto, a message in text format, and its bytes where a paper gives them: the encoding page's 150,
# "testing", embedded message and -2, and document 01's -1, W1 and W2.
WRITTEN = [
    ("Command.Setup", "newClusterVersion: 150", "089601"),
    ("Message.HMACauth", 'hmac: "testing"', "120774657374696e67"),
    ("Command.Body", "setup { newClusterVersion: 150 }", "1a03089601"),
    ("Command.Setup", "newClusterVersion: -2", "08feffffffffffffffff01"),
    ("Command.Setup", "newClusterVersion: -1", "08ffffffffffffffffff01"),
    ("Command.Setup", "newClusterVersion: 0", None),
    ("Command.Setup", "newClusterVersion: 127", None),
    ("Command.Setup", "newClusterVersion: 128", None),
    ("Command.Setup", "newClusterVersion: 9223372036854775807", None),
    ("Command.Setup", "newClusterVersion: -9223372036854775808", None),
    ("Command", "header { connectionID: 1 ackSequence: 2 messageType: NOOP_RESPONSE } status { code: SUCCESS }", "0a0618013002381d1a020801"),
    ("Command", "header { connectionID: 1 ackSequence: 3 messageType: GET_RESPONSE } body { keyValue { key: 'k' dbVersion: 'v1' "
     "tag: '\\x01\\x02\\x03\\x04' algorithm: CRC32C } } status { code: SUCCESS }", None),
    ("Command", "header { connectionID: 1 ackSequence: 3 messageType: GET_RESPONSE } body { keyValue { key: 'k' } } status { code: SUCCESS }", None),
    ("Command", "header { connectionID: 1 } status { code: CONNECTION_TERMINATED }", "0a0218011a020814"),
]


def written():
    for message, text, paper in WRITTEN:
        data = encoded(message, text).hex()
        assert paper in (None, data), (text, data)
        yield data + "\n"


def made():
    cases = [(kind, bytes.fromhex(text), line) for kind, text, line in RAW] + [case[1:] for case in messages()]
    return {"program_fields/stdin": "".join(f"{KINDS.index(kind):02x}{data.hex()}\n" for kind, data, _ in cases),
            "program_fields/stdout": "".join(line + "\n" for _, _, line in cases),
            "program_writers/stdout": "".join(written())}


FIELDS, ENUMS = protobuf.proto()

if __name__ == "__main__":
    if sys.argv[1:2] == ["--hex"]:
        print(next(data.hex() for name, _, data, _ in messages() if name == sys.argv[2]))
        sys.exit()
    bad = False
    for name, text in made().items():
        path = os.path.join(CRATES, name)
        if sys.argv[1:] == ["--check"]:
            same = os.path.exists(path) and open(path).read() == text
            print(f"{name}: {'same' if same else 'NOT THE SAME'}")
            bad |= not same
        else:
            open(path, "w").write(text)
    sys.exit(bad)
