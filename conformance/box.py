"""The calls of a box over lent bytes: of a shared library (Library), or of the model behind the same interface (Model).

A call is named as in the header (include/ridgeladle.h), with what is lent to it and nothing else:

    answer   store, record, connection, readings, input, room        (room is the length of the reply buffer)
    format   store, record, key
    connect  connection, number, protected
    find     store, key
    rescue   store, report
    sha1     text
    hmac     key, text

`run(call)` gives everything as it is after the call: what was returned, and each lent range, those that a box may only read too. So two boxes agree on
a call exactly when what they give is equal.
"""
import ctypes
import hashlib
import json
import mmap
import pathlib
import types

import model

GIVEN = {"answer": ("store", "record", "connection", "readings", "input", "room"), "format": ("store", "record", "key"),
         "connect": ("connection", "number", "protected"), "find": ("store", "key"), "rescue": ("store", "report"), "sha1": ("text",),
         "hmac": ("key", "text")}

# What stands in a buffer that the box may write, before the call: no byte like its neighbours, and nothing that a box would write.
FILL = bytes((i * 151 + 90) % 251 + 1 for i in range(1 << 14))


class Call:
    """A call with what is lent: bytes, or numbers for room, number and protected. With `null`, what has no bytes is lent as NULL, else as a pointer that
    must not be followed."""

    def __init__(self, name, null=False, **given):
        assert set(given) == set(GIVEN[name]) and given.get("room", 0) <= len(FILL), (name, set(given))
        self.name, self.null, self.given = name, null, given

    def __getitem__(self, what):
        return self.given[what]

    def changed(self, **given):
        return Call(self.name, **{"null": self.null, **self.given, **given})

    def __eq__(self, other):
        return (self.name, self.null, self.given) == (other.name, other.null, other.given)

    def packed(self):
        """As an object of JSON: bytes as hex, or where zeros abound as [length, place, hex, place, hex, ..]."""
        said = {what: pack(x) if isinstance(x, bytes) else x for what, x in self.given.items()}
        return {"call": self.name, **({"null": True} if self.null else {}), **said}

    @staticmethod
    def unpacked(said):
        given = {what: said[what] if what in ("room", "number", "protected") else unpack(said[what]) for what in GIVEN[said["call"]]}
        return Call(said["call"], said.get("null", False), **given)


def pack(data):
    if len(data) < 128:
        return data.hex()
    runs, at = [len(data)], 0
    while at < len(data):
        if data[at] == 0:
            at += 1
            continue
        end = data.find(bytes(8), at)
        end = len(data) if end < 0 else end
        runs += [at, data[at:end].hex()]
        at = end
    return runs


def unpack(said):
    if isinstance(said, str):
        return bytes.fromhex(said)
    data = bytearray(said[0])
    for at, text in zip(said[1::2], said[2::2]):
        data[at:at + len(text) // 2] = bytes.fromhex(text)
    return bytes(data)


# ---- The model as a box

class Model:
    """What document 01 says of a call. `module` may be another than the model, to try what the kit catches."""

    def __init__(self, module=model):
        self.module = module

    def run(self, call):
        return getattr(self, call.name)(call)

    def answer(self, call):
        m, given = self.module, call.given
        box, connection = m.Box(given["store"], given["record"]), m.connection_of(given["connection"])
        got = m.answer(box, connection, given["readings"], given["input"], given["room"])
        out, counts = FILL[:given["room"]], FILL[:16]
        if got.refusal == 0:
            out, counts = got.reply + out[len(got.reply):], counted(got.taken, len(got.reply))
        return {"returned": got.refusal, "store": box.store, "record": box.record, "connection": m.connection_after(given["connection"], connection),
                "readings": given["readings"], "input": given["input"], "out": out, "counts": counts}

    def format(self, call):
        box = self.module.Box(call["store"], call["record"])
        return {"returned": self.module.format_box(box, call["key"]), "store": box.store, "record": box.record, "key": call["key"]}

    def connect(self, call):
        return {"returned": 0, "connection": self.module.connect(call["number"], call["protected"])}

    def find(self, call):
        how, place, value = self.module.local_read(call["store"], call["key"])
        return {"returned": {"found": 0, "not found": 1, "STORE_BAD": 2}[how], "store": call["store"], "key": call["key"],
                "part": counted(place, len(value)) if how == "found" else FILL[:16]}

    def rescue(self, call):
        returned, store, report = self.module.rescue(call["store"], call["report"])
        return {"returned": returned, "store": store, "report": report}

    def sha1(self, call):
        return {"returned": 0, "text": call["text"], "digest": hashlib.sha1(call["text"]).digest()}

    def hmac(self, call):
        how, digest = self.module.hmac_call(call["key"], call["text"])
        return {"returned": how, "key": call["key"], "text": call["text"], "digest": digest or FILL[:20]}


def counted(*numbers):
    return b"".join((ctypes.c_uint64 * 1)(n) for n in numbers)


def reply_of(after):
    """The reply that an `answer` wrote, and the bytes that it took; None where it refused."""
    if after["returned"] != 0:
        return None
    taken, written = (int(n) for n in (ctypes.c_uint64 * 2).from_buffer_copy(after["counts"]))
    return after["out"][:written], taken


# ---- A shared library

class Lent:
    """Memory that is lent: its last byte is the last that may be touched (to touch the next ends the process), and bytes before it are watched."""

    WATCHED = 64

    def __init__(self, most):
        self.room = -(-(most + self.WATCHED) // mmap.PAGESIZE) * mmap.PAGESIZE
        self.map = mmap.mmap(-1, self.room + mmap.PAGESIZE)
        self.start = ctypes.addressof(ctypes.c_char.from_buffer(self.map))
        if ctypes.CDLL(None, use_errno=True).mprotect(ctypes.c_void_p(self.start + self.room), ctypes.c_size_t(mmap.PAGESIZE), 0) != 0:
            raise OSError(ctypes.get_errno(), "mprotect")

    def lend(self, data):
        self.at = self.room - len(data)
        self.map[self.at - self.WATCHED:self.at] = FILL[:self.WATCHED]
        self.map[self.at:self.room] = data
        return self.start + self.at

    def back(self):
        """What is there now; with what stands before it where that was written."""
        watched = self.map[self.at - self.WATCHED:self.at]
        return self.map[self.at:self.room] if watched == FILL[:self.WATCHED] else watched + self.map[self.at:self.room]


class Library:
    """The calls of a shared library, whose names begin with `prefix`."""

    def __init__(self, path, prefix="ridgeladle_"):
        library = ctypes.CDLL(str(pathlib.Path(path).resolve()))
        pointer, size = ctypes.c_void_p, ctypes.c_size_t
        forms = {"answer": (ctypes.c_uint32, pointer, size, pointer, pointer, pointer, size, pointer, size, pointer, size, pointer),
                 "format": (ctypes.c_uint32, pointer, size, pointer, pointer, size), "connect": (None, pointer, ctypes.c_int64, ctypes.c_uint8),
                 "find": (ctypes.c_uint32, pointer, size, pointer, size, pointer), "rescue": (ctypes.c_uint32, pointer, size, pointer, size),
                 "sha1": (ctypes.c_uint32, pointer, size, pointer), "hmac": (ctypes.c_uint32, pointer, size, pointer, size, pointer)}
        self.calls, self.null, self.lent = types.SimpleNamespace(), False, {}
        for name, (returned, *taken) in forms.items():
            call = getattr(library, prefix + name)
            call.restype, call.argtypes = returned, taken
            setattr(self.calls, name, call)

    def run(self, call):
        self.null = call.null
        return getattr(self, call.name)(call)

    def lend(self, what, data):
        place = self.lent.get(what)
        if place is None or len(data) + place.WATCHED > place.room:
            place = self.lent[what] = Lent(max(len(data), 1 << 14))
        at = place.lend(data)
        return None if self.null and not data else at

    def after(self, returned, *names):
        return {"returned": returned, **{what: self.lent[what].back() for what in names}}

    def answer(self, call):
        store, readings, data, room = call["store"], call["readings"], call["input"], call["room"]
        returned = self.calls.answer(self.lend("store", store), len(store), self.lend("record", call["record"]), self.lend("connection", call["connection"]),
                                     self.lend("readings", readings), len(readings), self.lend("input", data), len(data),
                                     self.lend("out", FILL[:room]), room, self.lend("counts", FILL[:16]))
        return self.after(returned, "store", "record", "connection", "readings", "input", "out", "counts")

    def format(self, call):
        store, key = call["store"], call["key"]
        returned = self.calls.format(self.lend("store", store), len(store), self.lend("record", call["record"]), self.lend("key", key), len(key))
        return self.after(returned, "store", "record", "key")

    def connect(self, call):
        self.calls.connect(self.lend("connection", call["connection"]), call["number"], call["protected"])
        return self.after(0, "connection")

    def find(self, call):
        store, key = call["store"], call["key"]
        returned = self.calls.find(self.lend("store", store), len(store), self.lend("key", key), len(key), self.lend("part", FILL[:16]))
        return self.after(returned, "store", "key", "part")

    def rescue(self, call):
        store, report = call["store"], call["report"]
        returned = self.calls.rescue(self.lend("store", store), len(store), self.lend("report", report), len(report))
        return self.after(returned, "store", "report")

    def sha1(self, call):
        returned = self.calls.sha1(self.lend("text", call["text"]), len(call["text"]), self.lend("digest", FILL[:20]))
        return self.after(returned, "text", "digest")

    def hmac(self, call):
        key, text = call["key"], call["text"]
        returned = self.calls.hmac(self.lend("key", key), len(key), self.lend("text", text), len(text), self.lend("digest", FILL[:20]))
        return self.after(returned, "key", "text", "digest")


# ---- To be read by people

def line(case):
    """A list of calls as a line of JSON."""
    return json.dumps([call.packed() for call in case], separators=(",", ":"))


def cases_in(text):
    return [[Call.unpacked(said) for said in json.loads(one)] for one in text.splitlines() if one.strip()]
