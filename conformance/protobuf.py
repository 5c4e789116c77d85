"""Google's protobuf (protoc, Debian's protobuf-compiler) over a rendering of document 003 (tests/kinetic.proto): messages as text, and replies read and
written again.

What protoc reads in a reply must be what the model reads in it, with document 003's names; and what protoc writes of that (fields ascending, shortest
varints) must be the reply's own bytes again.
"""
import ast
import fractions
import pathlib
import re
import subprocess

import model

HERE = pathlib.Path(__file__).resolve().parent
TESTS = HERE.parent / "tests"

TYPES = {number - 1: name + "_RESPONSE" for name, number in model.TYPES.items()} | {-1: "INVALID_MESSAGE_TYPE"}
CODES = {code: name for name, code in model.STATUS.items()}
ALGORITHMS = {1: "SHA1", 2: "SHA2", 3: "SHA3", 4: "CRC32C", 5: "CRC64", 6: "CRC32"}
AUTH_TYPES = {1: "HMACAUTH", 3: "UNSOLICITEDSTATUS"}


def installed():
    subprocess.run([TESTS / "need", "protoc", "protobuf-compiler"], check=True)


def protoc(how, data, message="Replies", file="replies.proto"):
    told = subprocess.run(["protoc", f"--proto_path={HERE}", f"--proto_path={TESTS}", f"--{how}={message}", file], input=data,
                          stdout=subprocess.PIPE, stderr=subprocess.PIPE)
    if told.returncode != 0:
        raise ValueError(told.stderr.decode(errors="replace").strip() or f"protoc --{how} ended with {told.returncode}")
    return told.stdout


def proto():
    """The fields of each message of kinetic.proto, by name: number and type; and the values of each enum."""
    fields, enums, within = {}, {}, []
    for line in (TESTS / "kinetic.proto").read_text().splitlines():
        line = line.split("//")[0].strip()
        if m := re.match(r"(message|enum) (\w+) {$", line):
            within.append(m.groups())
            (fields if m[1] == "message" else enums).setdefault(m[2], {})
        elif line == "}":
            within.pop()
        elif m := re.match(r"(?:optional|repeated) (\w+) (\w+) = (\d+);$", line):
            fields[within[-1][1]][m[2]] = (int(m[3]), m[1])
        elif m := re.match(r"(\w+) = (-?\d+);$", line):
            enums[within[-1][1]][m[1]] = int(m[2])
    return fields, enums


FLOATS = {"value", "current", "portionFull"}  # of a log, the only messages of a reply that have these names


def bits_of(word):
    """The bits of the f32 that protoc writes as a decimal."""
    negative = word.startswith("-")
    bits = model.rounded(abs(fractions.Fraction(word)))
    return bits | negative << 31


def lines_read(text):
    """protoc's text as a list of (name, content), a content being a word of the text, the bits of an f32, or again a list."""
    found = []
    inside = [found]
    for line in text.decode().splitlines():
        line = line.strip()
        if line == "}":
            inside.pop()
        elif line.endswith("{"):
            inner = []
            inside[-1].append((line[:-1].strip(), inner))
            inside.append(inner)
        else:
            name, _, content = line.partition(": ")
            inside[-1].append((name, ast.literal_eval("b" + content) if content.startswith('"') else bits_of(content) if name in FLOATS else content))
    return found


def expected(reply):
    """What is in a reply, with document 003's names, as the model reads it: its message, its command."""
    told = model.decode("Message", model.framed(reply)[1])
    command = model.decode("Reply", told[7])
    header, body, auth = command[1], command.get(2), told.get(5)
    message = [("authType", AUTH_TYPES[told[4]])]
    if auth is not None:
        message.append(("hmacAuth", [("identity", str(auth[1])), ("hmac", auth[2])]))
    message.append(("commandBytes", told[7]))
    shown = [("connectionID", str(header[3]))]
    shown += [("ackSequence", str(header[6]))] if 6 in header else []
    shown += [("messageType", TYPES[header[7]])] if 7 in header else []
    parts = [("header", shown)]
    if body is not None:
        parts.append(("body", [("keyValue", pair_shown(body[1])) if 1 in body else ("getLog", log_shown(body[6])) if 6 in body else
                               ("range", [("keys", key) for key in body[2].get(8, [])])]))
    return message, parts + [("status", [("code", CODES[command[3][1]])])]


def pair_shown(pair):
    names = {3: "key", 4: "dbVersion", 5: "tag"}
    return [(names[n], pair[n]) for n in (3, 4, 5) if n in pair] + ([("algorithm", ALGORITHMS[pair[6]])] if 6 in pair else [])


LIMITS = {1: "maxKeySize", 2: "maxValueSize", 3: "maxVersionSize", 4: "maxTagSize", 8: "maxMessageSize", 9: "maxKeyRangeCount", 10: "maxIdentityCount"}


def log_shown(log):
    shown = [("utilizations", named(u, {1: "name", 2: "value"})) for u in log.get(2, [])]
    shown += [("temperatures", named(t, {1: "name", 2: "current"})) for t in log.get(3, [])]
    shown += [("capacity", named(log[4], {4: "nominalCapacityInBytes", 5: "portionFull"}))] if 4 in log else []
    return shown + ([("limits", named(log[8], LIMITS))] if 8 in log else [])


def named(fields, names):
    """The fields of a message with document 003's names: bytes, the bits of an f32, or a number as a word."""
    return [(names[n], content if isinstance(content, (bytes, model.F32)) else str(content)) for n, content in sorted(fields.items())]


def batch(replies):
    """What is wrong with the first reply of a list that protobuf reads or writes otherwise: the reply and words; None where there is none."""
    data = b"".join(model.field(1, told) + model.field(2, model.decode("Message", told)[7]) for told in (model.framed(reply)[1] for reply in replies))
    text = protoc("decode", data)
    found = lines_read(text)
    messages, commands = ([content for name, content in found if name == wanted] for wanted in ("message", "command"))
    for reply, message, command in zip(replies, messages, commands):
        if (message, command) != expected(reply):
            return reply, f"protoc reads {(message, command)}, the model {expected(reply)}"
    if len(messages) != len(replies) or len(commands) != len(replies):
        return replies[0], f"protoc reads {len(messages)} messages and {len(commands)} commands in {len(replies)} replies"
    again = [content for _, _, content in model.fields_of(protoc("encode", text))]
    for n, reply in enumerate(replies):
        told = model.framed(reply)[1]
        if (again[n], again[len(replies) + n]) != (told, model.decode("Message", told)[7]):
            return reply, f"protoc writes {again[n].hex()} with the command {again[len(replies) + n].hex()}, the box {told.hex()}"
    return None


def different(replies):
    """As `batch`; where protoc refuses all of them, the one it refuses."""
    try:
        return batch(replies)
    except (ValueError, KeyError) as why:
        if len(replies) == 1:
            return replies[0], str(why)
        half = len(replies) // 2
        return different(replies[:half]) or different(replies[half:]) or (replies[0], str(why))
