"""Requests as trees, so that any field at any depth can be changed, put in or left out, and the whole signed again.

A tree is a list of items. An item is a Field, or bytes that stand as they are. A field's content is a number (wire type 0), Fixed bytes (wire type 5
for four, 1 for eight), or bytes, a tree, or SIGNED, the digest under the request's key of the commandBytes (wire type 2).
"""
import dataclasses
import typing

import model

# Which kind of message a field holds, as document 01 lists them; the Command stands in commandBytes.
INSIDE = {(kind, number): form for kind, listed in model.LISTED.items() for number, form in listed.items() if isinstance(form, str) and form in model.LISTED}
INSIDE["Message", 7] = "Command"


class Fixed(bytes):
    """Content of four or eight bytes of its own wire type."""


SIGNED = object()


class Field(typing.NamedTuple):
    """`long_tag`, `long_form`: how many bytes longer than needed are the tag, and the number or the length."""
    number: int
    content: object
    long_tag: int = 0
    long_form: int = 0


def long_varint(n, longer=0):
    short = model.varint(n)
    return short if longer == 0 else short[:-1] + bytes([short[-1] | 128]) + b"\x80" * (longer - 1) + b"\0"


def encoded(tree, digest=b""):
    return b"".join(item if isinstance(item, bytes) else encoded_field(item, digest) for item in tree)


def encoded_field(item, digest):
    number, content, long_tag, long_form = item
    if isinstance(content, int):
        return long_varint(number * 8, long_tag) + long_varint(content, long_form)
    if isinstance(content, Fixed):
        return long_varint(number * 8 + (5 if len(content) == 4 else 1), long_tag) + content
    data = digest if content is SIGNED else encoded(content, digest) if isinstance(content, list) else content
    return long_varint(number * 8 + 2, long_tag) + long_varint(len(data), long_form) + data


def tree(*fields):
    """The fields given as (number, content) or as items, those with no content left out."""
    return [Field(*f) if type(f) is tuple else f for f in fields if not (type(f) is tuple and f[1] is None)]


def levels(items, kind="Message", way=()):
    """Each message in a tree: its kind, its items, and the way to it, a list of places."""
    yield kind, items, way
    for place, item in enumerate(items):
        if isinstance(item, Field) and isinstance(item.content, list):
            inner = INSIDE.get((kind, item.number))
            if inner:
                yield from levels(item.content, inner, way + (place,))


def replaced(items, way, new):
    """The tree with other items at the end of a way."""
    if not way:
        return new
    item = items[way[0]]
    return items[:way[0]] + [item._replace(content=replaced(item.content, way[1:], new))] + items[way[0] + 1:]


def sub(items, number):
    """The content of the last field of that number, which counts; None where there is none."""
    return next((item.content for item in reversed(items) if isinstance(item, Field) and item.number == number), None)


def part(items, *way):
    """The items of the messages at a way, by field numbers, one occurrence after the other; none where there is no such message."""
    for number in way:
        items = [inner for item in items if isinstance(item, Field) and item.number == number and isinstance(item.content, list) for inner in item.content]
    return items


def put_in(items, number, content):
    """The tree with that field, in its place where it was there, else at the end; without it for None."""
    if content is None:
        return [item for item in items if not (isinstance(item, Field) and item.number == number)]
    if sub(items, number) is None:
        return items + [Field(number, content)]
    return [Field(number, content) if isinstance(item, Field) and item.number == number else item for item in items]


def signed(items, key):
    """The bytes of a message, with the digest of the commandBytes that count."""
    command = sub(items, 7)
    if isinstance(command, list):
        command = encoded(command)
    return encoded(items, model.hmac_of(key, command if isinstance(command, bytes) else b""))


@dataclasses.dataclass(frozen=True)
class Request:
    """A message as a tree, the key to sign it with, and the value part."""
    message: list
    key: bytes
    value: bytes = b""

    def bytes(self):
        return model.frame(self.signed(), self.value)

    def signed(self):
        """The bytes of the message."""
        return signed(self.message, self.key)

    def at(self, *way, **changes):
        """A request with fields of the message at `way` changed: numbers as f1=.., None to leave one out. The way is by field numbers."""
        def changed(items, way):
            if way:
                return put_in(items, way[0], changed(part(items, way[0]), way[1:]))
            for name, content in changes.items():
                items = put_in(items, int(name[1:]), content)
            return items
        return dataclasses.replace(self, message=changed(self.message, way))

    def adding(self, *items, to=()):
        """A request with items put at the end of the message at `to`, a way by field numbers."""
        def added(inside, way):
            return put_in(inside, way[0], added(part(inside, way[0]), way[1:])) if way else inside + tree(*items)
        return dataclasses.replace(self, message=added(self.message, to))

    def valued(self, value):
        return dataclasses.replace(self, value=value)


HEADER, KEYVALUE, RANGE, SETUP, GETLOG, SECURITY, AUTH = (7, 1), (7, 2, 1), (7, 2, 2), (7, 2, 3), (7, 2, 6), (7, 2, 7), (5,)


def request(kind, body=None, value=b"", identity=1, key=b"", number=0, sequence=1, cluster=None):
    """`kind` is the name of an operation or a messageType; `body` a tree."""
    header = tree((1, cluster), (3, number), (4, sequence), (7, model.TYPES.get(kind, kind)))
    return Request(tree((4, 1), (5, tree((1, identity), (2, SIGNED))), (7, tree((1, header), (2, body)))), key, value)


def log_tree(types):
    """The body that asks for types of a log."""
    return tree((6, tree(*((1, kind) for kind in types))))


def scope_tree(permissions, offset=None, value=None, tls=None):
    return tree((1, offset), (2, value), *((3, p) for p in permissions), (4, tls))


def acl_tree(identity, key, *scopes, algorithm=None):
    return tree((1, identity), (2, key), (3, algorithm), *((4, scope) for scope in scopes))


def security_tree(*acls):
    return tree((7, tree(*((2, acl) for acl in acls))))


def table_tree(table):
    """The Security that asks for a table."""
    return security_tree(*(acl_tree(acl.identity, acl.key, *(scope_tree(sorted(s.permissions), s.offset, s.value, int(s.tls)) for s in acl.scopes))
                           for acl in table.acls))
