"""Requests that protoc makes in parts: the parts concatenated at every level, and the same request in one piece, merged by protoc.

The parts of a request in which fields come twice are written as text and encoded by protoc, each holding no singular field twice, and concatenated. protoc
decodes the concatenation, which merges it, and encodes what it read: the same request without a field sent twice. The box must answer both alike, with
every byte of the state. Each request has a store, a table and a connection of its own.
"""
import functools
import random

import model
import protobuf
import sessions
from messages import INSIDE, SIGNED, encoded, replaced, sub

BATCH = 250  # requests that protoc is given at once
FIELDS, ENUMS = protobuf.proto()
NAMES = {(kind, number): (name, form) for kind, fields in FIELDS.items() for name, (number, form) in fields.items()}
NUMBERS = {kind: number for number, kind in enumerate(("Message", "HMACauth", "Command", "Header", "Body", "KeyValue", "Range", "Setup", "GetLog"), 1)}
# Bytes that the box doesn't look into, as a field of the message that document 003 has there.
UNREAD = {("Message", 6): "pin", ("Command", 3): "detailedMessage"}


def inner_kind(kind, item):
    """The kind of the message that an item holds; commandBytes are bytes here."""
    return INSIDE.get((kind, item.number)) if (kind, item.number) != ("Message", 7) else None


def named(kind, items, digest):
    """Items as (name, content), as protobuf.lines_read gives them."""
    return [(NAMES[kind, item.number][0], content_of(kind, item, digest)) for item in items]


def content_of(kind, item, digest):
    form, content, inner = NAMES[kind, item.number][1], item.content, inner_kind(kind, item)
    if (kind, item.number) in UNREAD:
        return [(UNREAD[kind, item.number], content)]
    if inner:
        return named(inner, content, digest)
    if form == "bytes":
        return digest if content is SIGNED else encoded(content) if isinstance(content, list) else content
    if form == "bool":
        return str(content != 0).lower()
    return next(name for name, n in ENUMS[form].items() if n == content) if form in ENUMS else str(content)


def text_of(items):
    """Such a list in protoc's text format."""
    lines = (f"{name} {{ {text_of(content)} }}" if isinstance(content, list) else f"{name}: {quoted(content) if isinstance(content, bytes) else content}"
             for name, content in items)
    return " ".join(lines)


def quoted(data):
    return '"' + "".join(f"\\{byte:03o}" for byte in data) + '"'


def contents(data):
    """The messages in the bytes of Parts."""
    return [model.fields_of(part)[0][2] for _, _, part in model.fields_of(data)]


def encode(asked):
    """The bytes of messages, given as a kind and a list of (name, content) each."""
    return contents(protobuf.protoc("encode", text_of([("part", [message]) for message in asked]).encode(), "Parts"))


def decode(kind, made):
    """protoc's text of messages of a kind."""
    return protobuf.protoc("decode", b"".join(model.field(1, model.field(NUMBERS[kind], message)) for message in made), "Parts")


def read(text):
    """Such a text as a kind and a list of (name, content) for each message."""
    return [part[0] for _, part in protobuf.lines_read(text)]


def whole(kind, items):
    """Whether a message has no singular field twice, at any depth."""
    numbers = [item.number for item in items if (kind, item.number) not in model.REPEATED]
    return len(set(numbers)) == len(numbers) and all(whole(inner_kind(kind, item), item.content) for item in items if inner_kind(kind, item))


def assembled(kind, items, part):
    """A message as the concatenation of its parts; `part` gives the bytes of one, a kind and items in which no singular field comes twice."""
    made, run = b"", []
    for item in items:
        inner = inner_kind(kind, item)
        split = inner is not None and not whole(inner, item.content)
        if run and (split or not whole(kind, run + [item])):
            made, run = made + part(kind, run), []
        if split:
            made += model.field(item.number, assembled(inner, item.content, part))
        else:
            run.append(item)
    return made + (part(kind, run) if run else b"")


def concatenated(kind, asked):
    """The bytes of messages of a kind, given as items and the digest to be sent in them, their parts made by protoc."""
    parts = []
    for items, digest in asked:
        assembled(kind, items, lambda kind, items: parts.append((kind, named(kind, items, digest))) or b"")
    made = iter(encode(parts))
    return [assembled(kind, items, lambda kind, items: next(made)) for items, _ in asked]


def with_bytes(items, command):
    """A message with these bytes as the commandBytes that count."""
    return replaced(items, (max(place for place, item in enumerate(items) if item.number == 7),), command)


def with_command(said, key, command):
    """What protoc read in a message, with another command: signed again where it was signed."""
    said = dict(said)
    digests = {model.hmac_of(key, said["commandBytes"]): model.hmac_of(key, command)}
    auth = [(name, digests.get(content, content)) for name, content in said["hmacAuth"]]
    return list({**said, "hmacAuth": auth, "commandBytes": command}.items())


@functools.lru_cache(4)
def batch(seed, number):
    """For each request of a batch the call with the concatenation, and that with what protoc makes of it."""
    sites = [sessions.Site(random.Random(f"{seed} merged {number * BATCH + n}")) for n in range(BATCH)]
    requests = [sessions.repeated(site.r, site.request(site.connections[0])) for site in sites]
    commands = concatenated("Command", [(sub(made.message, 7), b"") for made in requests])
    messages = concatenated("Message", [(with_bytes(made.message, command), model.hmac_of(made.key, command)) for made, command in zip(requests, commands)])
    said = [content for _, content in read(decode("Message", messages))]
    plain = contents(protobuf.protoc("encode", decode("Command", [dict(message)["commandBytes"] for message in said]), "Parts"))
    merged = encode([("Message", with_command(message, made.key, command)) for message, made, command in zip(said, requests, plain)])
    return [[site.call(0, model.frame(message, made.value)) for message in both] for site, made, *both in zip(sites, requests, messages, merged)]


def session(seed, index):
    parts, merged = batch(seed, index // BATCH)[index % BATCH]
    first = []
    yield merged, first.append
    yield parts, lambda got: sessions.same_as_without(first[0], got, len(parts["input"]))
