"""For each rule of document 01 a case on each side of its limit, with what document 01 says of it, worked out by hand.

A row has the sentence that it tests, what is special about it, and steps: a call each, with what is wanted of it. What is wanted is a refusal (Refusal),
or a status code with the step of "The order of judgement" that gives it, which decides the rest: whether the connection closes, the type, field 6,
whether the sequence counts, and that nothing changes on a failure. The runner also holds each call to the model, byte for byte.
"""
import dataclasses

import model
from box import Call, reply_of
from messages import HEADER, Request, acl_tree, log_tree, part, request, scope_tree, security_tree, sub, tree
from model import ROOM, Acl, Entry, Reading, Readings, Scope, Table

KEY, NUMBER = b"key-of-one", 7
ALL = frozenset(model.PERMISSIONS)
MOST, LEAST = (1 << 63) - 1, -1 << 63


def scope(permissions=ALL, offset=0, value=b"", tls=False):
    return Scope(frozenset(permissions), offset, value, tls)


def record(*acls, cluster=0):
    return model.record_of(Table(cluster, acls or (Acl(1, KEY, (scope(),)),)))


def scoped(*scopes):
    return record(Acl(1, KEY, scopes))


def connection(number=NUMBER, protected=0, closed=0, last=None):
    return model.word(number) + bytes([protected, closed, last is not None]) + bytes(5) + model.word(last or 0) + bytes(8)


def entry(n):
    return Entry(b"key%03d" % n, b"%d" % n, b"t", 1 + n % 6, b"value of %d" % n)


ENTRIES = [Entry(b"key0", b"v0", b"tag0", 1, b"value of key0"), Entry(b"key2", b"v2", b"", 0, b"")]
STORE, RECORD, CONNECTION = model.store_of(ENTRIES, 4 * 512), record(), connection()
FULL = model.store_of(map(entry, range(128)), 65536)
NEW_KEY = b"another key"


# 36.6 as Celsius, 98.6 as Fahrenheit (37), a quarter and nothing.
TEMPERATURES = (Reading(b"HDA", 0x42126666), Reading(b"board", 0x42c53333, 1))
UTILIZATIONS = (Reading(b"EN0", 0x3e800000), Reading(b"EN1", 0))
READINGS = model.readings_bytes(Readings(TEMPERATURES, UTILIZATIONS))


def ask(kind, body=None, value=b"", **given):
    return request(kind, body, value, **{"key": KEY, "number": NUMBER, **given})


def keyed(kind, key=b"key0", value=b"", **fields):
    """A request with a keyValue: its fields besides the key as f2=.., f4=.."""
    pair = tree((3, key), *((int(name[1:]), content) for name, content in sorted(fields.items())))
    return ask(kind, tree((1, pair)), value)


def ranged(start=b"a", end=b"z", **fields):
    return ask("GETKEYRANGE", tree((2, tree((1, start), (2, end), *((int(name[1:]), content) for name, content in sorted(fields.items()))))))


def logged(*types, **given):
    return ask("GETLOG", log_tree(types), **given)


def secured(*acls, **given):
    return ask("SECURITY", security_tree(*acls), **given)


ONE_SCOPE = scope_tree([0, 8])
# A request of each operation that succeeds in the state above.
GOOD = {"NOOP": ask("NOOP"), "FLUSHALLDATA": ask("FLUSHALLDATA"), "GET": keyed("GET"), "GETVERSION": keyed("GETVERSION"),
        "GETNEXT": keyed("GETNEXT"), "GETPREVIOUS": keyed("GETPREVIOUS", b"key2"), "GETKEYRANGE": ranged(),
        "PUT": keyed("PUT", b"key1", b"new value", f2=b"v1", f5=b"tag1", f6=4), "DELETE": keyed("DELETE", f4=b"v0"),
        "SETUP": ask("SETUP", tree((3, tree((1, 5))))), "GETLOG": logged(0, 1, 2, 6), "SECURITY": secured(acl_tree(1, NEW_KEY, ONE_SCOPE))}
KEYED = ["GET", "GETVERSION", "GETNEXT", "GETPREVIOUS", "PUT", "DELETE"]


@dataclasses.dataclass(frozen=True)
class Refusal:
    number: int


@dataclasses.dataclass(frozen=True)
class Says:
    """A status code, given at a step. `more`: for a success, what is read in the reply or the state (see `held`)."""
    code: int
    step: int
    more: dict = dataclasses.field(default_factory=dict)


def success(**more):
    return Says(1, 10, more)


OK, UNDECODED, UNREAD, UNSIGNED, UNBUILT, INVALID = Says(1, 10), Says(16, 3), Says(20, 1), Says(2, 2), Says(16, 7), Says(16, 8)
HEADERLESS, OTHER_CLUSTER, OUT_OF_TURN, UNKNOWN_HMAC, FORBIDDEN = Says(6, 4), Says(4, 5), Says(16, 6), Says(15, 8), Says(3, 9)
NOT_FOUND, MISMATCH, NO_SPACE = Says(7, 10), Says(8, 10), Says(14, 10)
OUT_SHORT, STORE_BAD, DEVICE_BAD, CLOSED, MORE, KEY_BAD, READINGS_BAD, REPORT_BAD = map(Refusal, (1, 2, 3, 4, 5, 6, 7, 8))


@dataclasses.dataclass(frozen=True)
class Row:
    """`steps`: requests, bytes, calls, or functions that make a call of the state, each with what is wanted of it (None: only what the model says).
    `start`: what is lent to the first."""
    sentence: str
    what: str
    start: dict
    steps: list

    def play(self):
        """Gives each call with what is to be held of it, and takes what there is after it: the state of the next."""
        state = self.start
        for given, wanted in self.steps:
            call = given if isinstance(given, Call) else given(state) if callable(given) else answer_call(given, **state)
            after = yield call, (lambda after, call=call, wanted=wanted, given=given: held(call, wanted, given, after))
            state = {**state, **{what: after[what] for what in ("store", "record", "connection") if what in after}}


class Rows(list):
    def says(self, sentence):
        self.sentence = sentence

    def row(self, what, wanted, given, **lent):
        self.append(Row(self.sentence, what, lent, [(given, wanted)]))

    def session(self, what, requests, wants, as_is=False, **lent):
        """Requests that follow each other on a connection, with sequences that grow by one unless they stand as they are."""
        if not as_is:
            requests = [made.at(*HEADER, f4=n + 1) if isinstance(made, Request) else made for n, made in enumerate(requests)]
        self.append(Row(self.sentence, what, lent, list(zip(requests, wants))))

    def call(self, what, wanted, name, **given):
        """Another call; `wanted` is a number, or a function that says what is wrong with what there is after it."""
        self.append(Row(self.sentence, what, {}, [(Call(name, **given), wanted)]))


def answer_call(given, store=STORE, record=RECORD, connection=CONNECTION, readings=READINGS, room=ROOM, null=False):
    data = given.bytes() if isinstance(given, Request) else given
    return Call("answer", null, store=store, record=record, connection=connection, readings=readings, input=data, room=room)


def turned(data, place, bit):
    return data[:place] + bytes([data[place] ^ 1 << bit]) + data[place + 1:]


# ---- What is wanted, held against what there is after a call

def reply_read(data):
    """The message, the command and the value part of a reply."""
    _, told, value = model.framed(data)
    told = model.decode("Message", told)
    return told, model.decode("Reply", told[7]), value


def held(call, wanted, given, after):
    """What is not as wanted, or None."""
    if wanted is None:
        return None
    if callable(wanted):
        return wanted(after)
    if isinstance(wanted, (int, Refusal)):
        number = wanted if isinstance(wanted, int) else wanted.number
        changed = [what for what in call.given if what in after and after[what] != call[what] and number != 0]
        return f"returned {after['returned']} instead of {number}" if after["returned"] != number else f"changed {changed}" if changed else None
    if after["returned"] != 0:
        return f"refusal {after['returned']} instead of code {wanted.code}"
    told, command, value = reply_read(reply_of(after)[0])
    before, now = model.connection_of(call["connection"]), model.connection_of(after["connection"])
    wants = wanted_parts(wanted, before, part(given.message, *HEADER) if isinstance(given, Request) else None)
    has = {"code": command[3].get(1), "closed": now.closed, "closing": told.get(4) == 3 and 5 not in told, "type": command[1].get(7),
           "field 6": command[1].get(6), "last": now.last, "body": wanted.code == 1 or 2 not in command and value == b"",
           "kept": wanted.code == 1 or (after["store"], after["record"]) == (call["store"], call["record"])}
    has.update(read_more(wanted.more, after, told, command, value))
    wrong = {name: (has[name], wants[name]) for name in wants if has[name] != wants[name]}
    return "; ".join(f"{name} is {is_}, wanted {want}" for name, (is_, want) in wrong.items()) or None


def wanted_parts(wanted, before, header):
    wants = {"code": wanted.code, "closed": wanted.step < 3, "closing": wanted.step < 3, "body": True, "kept": True}
    if wanted.step < 7:
        wants["last"] = before.last
    if header is not None and wanted.step >= 3:
        sequence, kind = sub(header, 4), sub(header, 7)
        wants["field 6"] = None if wanted.step == 3 else sequence
        wants["type"] = kind - 1 if kind in model.BUILT and wanted.step > 3 else -1
        wants["last"] = sequence if wanted.step >= 7 else before.last
    return {**wants, **wanted.more}


def read_more(asked, after, told, command, value):
    body = command.get(2, {})
    pair, table = body.get(1, {}), model.table_of(after["record"])
    entries, log = model.entries_of(after["store"]) or [], body.get(6, {})
    has = {"value": value, "keys": body.get(2, {}).get(8, []), "key": pair.get(3), "version": pair.get(4), "tag": pair.get(5), "algorithm": pair.get(6),
           "parts": sorted(body), "fields": sorted(pair), "taken": reply_of(after)[1], "reply": reply_of(after)[0].hex(" "), "count": len(entries),
           "log": sorted(log), "capacity": log.get(4), "limits": log.get(8), "utilizations": [(u.get(1), u.get(2)) for u in log.get(2, [])],
           "temperatures": [(t.get(1), t.get(2)) for t in log.get(3, [])],
           "entry": entries[0] if entries else None, "cluster": table and table.cluster, "acls": table and table.acls,
           "signed": told.get(5, {}).get(2) == model.hmac_of(asked["signed with"], told[7]) if "signed with" in asked else None,
           "block": after["store"][:512].hex()}
    return {**{name: has[name] for name in asked if name in has}, **({"signed with": asked["signed with"] if has["signed"] else None}
                                                                     if "signed with" in asked else {})}
