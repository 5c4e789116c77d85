#!/usr/bin/env python3
"""A day at a site: the events that crates/program_site is run on (its stdin), and what it must write (its stdout).

  tests/site.py            writes both files
  tests/site.py --check    says whether they are as this script makes them

What the box answers is worked out by conformance/model.py, from document 01; nothing here is taken from the program. Where document 01 gives the
answer itself (W1, W2, the lengths of keys and values, the 129th put) the model is held to it.
"""
import hashlib
import os
import sys
import zlib

HERE = os.path.dirname(os.path.abspath(__file__))
sys.path.insert(0, os.path.join(HERE, "..", "conformance"))

import model
from model import field, frame, header_of, message, signed

CRATE = os.path.join(HERE, "..", "crates", "program_site")
HEAD = f"    No.  {'Time   Who       Asked':64}{'Answer':28}  Taken Written Entries  Reply, or its SHA-1\n"
CODES = {code: name for name, code in model.STATUS.items()}
NAMES = {number: name for name, number in model.REFUSALS.items()}
BECAME = {"kept": model.KEPT, "blank": model.WAS_BLANK, "check wrong": model.CHECK_WRONG, "rule broken": model.RULE_BROKEN, "key twice": model.KEY_TWICE}


def shown(data):
    return "".join(chr(c) if 32 <= c <= 126 else f"\\{c:02x}" for c in data)


def under(name, data):
    """A line under a row, with at most 64 bytes of what is shown."""
    return f"{'':26}{name} {shown(data[:64])}" + (f" .. {len(data)} bytes\n" if len(data) > 64 else "\n") if data else ""


def command_of(reply):
    return model.decode("Reply", model.decode("Message", model.framed(reply)[1])[7])


def code_of(reply):
    return command_of(reply)[3][1]


def contents(reply):
    """The key and version of a keyValue, the keys of a range, the parts of a log and the value part of a reply."""
    body = command_of(reply).get(2, {})
    pair, keys = body.get(1, {}), "".join(" " + shown(key) for key in body.get(2, {}).get(8, []))
    return (under("key", pair.get(3, b"")) + under("version", pair.get(4, b"")) + (f"{'':26}keys{keys}\n" if keys else "")
            + log_lines(body.get(6, {})) + under("value", model.framed(reply)[2]))


def log_lines(log):
    """A line for each part of a log: floats as their bits in hex, where they are sent; numbers in decimal."""
    lines = [("utilization", shown(u[1]), u.get(2)) for u in log.get(2, [])] + [("temperature", shown(t[1]), t.get(2)) for t in log.get(3, [])]
    lines += [("capacity", str(log[4][4]), log[4][5])] if 4 in log else []
    lines += [("limits", " ".join(str(n) for _, n in sorted(log[8].items())), None)] if 8 in log else []
    return "".join(f"{'':26}{name} {words}" + ("" if bits is None else f" {bits:08x}") + "\n" for name, words, bits in lines)


def shortly(reply):
    return reply.hex() if len(reply) <= 24 else hashlib.sha1(reply).hexdigest()


def entries(store):
    """How many blocks are used, also of a store that breaks a rule elsewhere."""
    used = [store[at] != 0 for at in range(0, len(store), model.BLOCK)]
    return (used + [False]).index(False)


class Day:
    """The host: what it lends, the events that it plays, and what is to be written."""

    def __init__(self):
        self.events, self.written = [], []
        self.box, self.slots, self.room = model.Box(b"", bytes(model.RECORD)), {}, 4096
        self.readings = bytes(model.READINGS)
        self.rows, self.time = 0, ""

    def title(self, text):
        self.events.append(f"# {text}\n")
        self.written.append(f"\n{text}\n{HEAD}")

    def row(self, words, who, asked, answer):
        label = f"{self.time:7}{who:10}{asked}"
        assert len(label) < 64 and "\n" not in label, label
        self.rows += 1
        self.events.append(f"{words} {label}\n")
        self.written.append(f"{self.rows:7}  {label:64}{answer}\n")

    def format(self, length, key, asked):
        self.box = model.Box(bytes(length), self.box.record)
        refusal = model.format_box(self.box, key)
        self.row(f"format {length} {key.hex() or '-'}", "host", asked, "made" if refusal == 0 else f"refusal {refusal} {NAMES[refusal]}")

    def connect(self, slot, number, protected, who):
        self.slots[slot] = model.Connection(number, protected)
        self.row(f"connect {slot} {number} {int(protected)}", who, f"connection {number}, {'protected' if protected else 'plain'}", "connected")

    def send(self, slot, who, asked, data):
        got = model.answer(self.box, self.slots[slot], self.readings, data, self.room)
        counts = f"{got.taken:7} {len(got.reply):7} {entries(self.box.store):7}"
        if got.refusal:
            answer, reply = f"refusal {got.refusal} {NAMES[got.refusal]}", ""
        else:
            answer, reply = f"{CODES[code_of(got.reply)]} ({code_of(got.reply)})", "  " + shortly(got.reply)
        self.row(f"send {slot} {data.hex()}", who, asked, f"{answer:28}{counts}{reply}")
        self.written.append("" if got.refusal else contents(got.reply))
        return got

    def local(self, key, asked):
        how, _, value = model.local_read(self.box.store, key)
        self.row(f"local {key.hex() or '-'}", "display", asked, "refusal 2 STORE_BAD" if how == "STORE_BAD" else how)
        self.written.append(under("value", value))

    def rescue(self, asked):
        refusal, store, report = model.rescue(self.box.store, bytes(len(self.box.store) // model.BLOCK))
        self.box = model.Box(store, self.box.record)
        became = ", ".join(f"{name} {report.count(byte)}" for name, byte in BECAME.items())
        self.row("rescue", "host", asked, f"refusal {refusal} {NAMES[refusal]}" if refusal else became)
        return report

    def lend(self, room, asked):
        self.room = room
        self.row(f"out {room}", "host", asked, "done")

    def measured(self, readings, asked):
        """From now on these readings are lent."""
        self.readings = readings
        self.row(f"measured {readings.hex()}", "host", asked, "done")

    def overwrite(self, what, place, byte, asked):
        changed = bytearray(self.box.store if what == "block" else self.box.record)
        changed[place] = byte
        self.box = model.Box(bytes(changed), self.box.record) if what == "block" else model.Box(self.box.store, bytes(changed))
        self.row(f"{what} {place} {byte}", "host", asked, "done")

    def end(self):
        self.events.append("end\n")
        store, record = (hashlib.sha1(data).hexdigest() for data in (self.box.store, self.box.record))
        self.written.append(f"\nSHA-1 of the store          {store}\nSHA-1 of the device record  {record}\n")


class Client:
    """Who sends messages on a connection, with a sequence that grows by one."""

    def __init__(self, day, slot, who, identity, key, number, protected=False):
        self.day, self.slot, self.who, self.identity, self.key, self.number, self.protected = day, slot, who, identity, key, number, protected
        self.sequence, self.cluster = 1, None

    def connect(self, number=None):
        self.number = number or self.number
        self.sequence = 1
        self.day.connect(self.slot, self.number, self.protected, self.who)

    def command(self, kind, body=None, extra=b"", extra_header=b""):
        self.sequence += 1
        header = header_of(self.number, self.sequence, model.TYPES.get(kind, kind), self.cluster) + extra_header
        return message((1, header), (2, body)) + extra

    def framed(self, command, value=b"", **extra):
        return frame(signed(self.identity, self.key, command, **extra), value)

    def send(self, asked, data):
        return self.day.send(self.slot, self.who, asked, data)

    def ask(self, kind, body=None, asked="", value=b""):
        return self.send(f"{kind} {asked}".strip(), self.framed(self.command(kind, body), value))

    def put(self, key, value, version=b"1", old=None, force=None, asked=None):
        """A reading with its CRC32 as tag."""
        part = message((2, version), (3, key), (4, old), (5, zlib.crc32(value).to_bytes(4, "big")), (6, 6), (8, force))
        return self.ask("PUT", message((1, part)), asked or shown(key), value)

    def look(self, kind, key, asked=None, old=None, metadata=None, force=None):
        part = message((3, key), (4, old), (7, metadata), (8, force))
        return self.ask(kind, message((1, part)), asked or shown(key))

    def log(self, *types, asked):
        return self.ask("GETLOG", message((6, message(*((1, kind) for kind in types)))), asked)

    def range(self, start, end, asked, first=1, last=1, most=None, reverse=None):
        return self.ask("GETKEYRANGE", message((2, message((1, start), (2, end), (3, first), (4, last), (5, most), (6, reverse)))), asked)


def acl(identity, key, *scopes, algorithm=None, extra=b""):
    return message((1, identity), (2, key), (3, algorithm), *((4, scope) for scope in scopes)) + extra


def scope(permissions, value=None, offset=None, tls=None):
    return message((1, offset), (2, value), *((3, p) for p in permissions), (4, tls))


def security(*acls):
    return message((7, message(*((2, a) for a in acls))))


ALL = sorted(model.PERMISSIONS)
HOST_KEY, OFFICE_KEY = b"key of the host", b"the office's own key"
TIMER_KEYS = b"timer one, crew A", b"timer two, crew B"
TABLET_KEY = b"supervisor's tablet"
LAUNDRY_KEYS = b"tablet of laundry 1", b"tablet of laundry 2"


def table(extra=b"", algorithm=None, more=()):
    """The office may do all where the connection is protected; a timer writes under its own prefix; the tablet reads."""
    return security(*more, acl(1, OFFICE_KEY, scope(ALL, tls=1)),
                    acl(101, TIMER_KEYS[0], scope([model.WRITE], b"t1/"), extra=extra),
                    acl(102, TIMER_KEYS[1], scope([model.WRITE, model.DELETE], b"t2/", 0)),
                    acl(-7, TABLET_KEY, scope([model.READ, model.RANGE]), algorithm=algorithm))


def reading(n):
    """The n-th reading of a day: wet-bulb globe temperature and the work and rest minutes of the hour."""
    degrees = 262 + n * 7 % 60
    rest = 15 * sum(degrees > limit for limit in (275, 290, 305))
    return f"WBGT {degrees // 10}.{degrees % 10} C, work {60 - rest}, rest {rest}".encode()


def clock(n):
    """Every thirty seconds from eight o'clock."""
    return f"{8 + n // 120:02}{n // 2 % 60:02}{n % 2 * 30:02}"


def set_up(day, office, plain, tablet):
    day.title("The office sets up the box")
    day.time = "06:30"
    day.format(1000, HOST_KEY, "a store that is no number of blocks")
    day.format(65536, b"", "no key")
    day.format(65536, b"k" * 65, "a key of 65 bytes")
    day.format(65536, HOST_KEY, "128 blocks")
    office.connect()
    tablet.connect()
    first = office.ask("NOOP")
    assert first.reply[-12:].hex() == "0a0618013002381d1a020801" and len(first.reply) == 51  # W1
    tablet.ask("NOOP", asked="of an identity that is not there yet")
    same = security(acl(1, OFFICE_KEY, scope(ALL)), acl(1, TABLET_KEY, scope([0])))
    office.ask("SECURITY", same, "one identity twice")
    office.ask("SECURITY", table(algorithm=2), "another HMAC algorithm")
    office.ask("SECURITY", table(field(9, 1)), "an unknown field in an ACL")
    office.ask("SECURITY", security(acl(1, OFFICE_KEY, scope(ALL, b"x", -1))), "a negative offset")
    office.ask("SECURITY", table(), "office, two timers, tablet")
    office.ask("NOOP", asked="with the key of the host")
    office.key = OFFICE_KEY
    office.ask("NOOP", asked="on the closed connection")
    office.connect(2)
    office.ask("NOOP", asked="with the office's key")
    plain.connect()
    plain.ask("SECURITY", table(), "without protection")
    stranger = Client(day, 5, "stranger", 1, b"?", 1)
    stranger.connect()
    assert stranger.send("GET / HTTP/1.1", b"GET / HTTP/1.1").reply.hex() == "460000000c0000000020033a080a0218011a020814"  # W2


def readings(day, timers, office):
    day.title("The timers put readings")
    for n in range(3):
        day.time = f"{clock(n)[:2]}:{clock(n)[2:4]}"
        for place, timer in enumerate(timers):
            if n == 0:
                timer.connect()
            timer.put(f"t{place + 1}/{clock(n)}".encode(), reading(2 * n + place))
    one, two = timers
    again = one.framed(one.command("PUT", message((1, message((2, b"2"), (3, b"t1/080000"), (4, b"1"))))), b"WBGT 27.0 C, work 60, rest 0")
    one.send("PUT t1/080000 again, its version given", again)
    one.send("the same bytes a second time", again)
    one.put(b"t1/080000", b"old", old=b"1", asked="t1/080000, an old version given")
    one.put(b"t1/080000", reading(0), force=1, asked="t1/080000 by force")
    one.put(b"t2/080000", b"not mine", asked="t2/080000")
    two.look("DELETE", b"t2/080030", old=b"1")
    two.put(b"t2/080030", reading(3), version=b"2", asked="t2/080030 anew")
    half = one.framed(one.command("PUT", message((1, message((3, b"t1/080130"))))), reading(6))
    one.send("the first 40 bytes of a PUT", half[:40])
    both = half + one.framed(one.command("NOOP"))
    one.send("PUT t1/080130 whole, and more behind it", both)
    one.send("what was behind it: NOOP", both[len(half):])
    office.ask("FLUSHALLDATA")


def reading_back(day, tablet):
    day.title("The tablet reads back")
    day.time = "08:05"
    tablet.connect(tablet.number + 10)
    tablet.range(b"t1/", b"t1/~", "t1/ to t1/~")
    tablet.range(b"t1/080000", b"t2/080000", "t1/080000 to t2/080000, no ends", first=None, last=None)
    tablet.range(b"t1/", b"t2/~", "t1/ to t2/~, backwards, 3 at most", most=3, reverse=1)
    tablet.range(b"t1/080000", b"t1/080000", "t1/080000 to itself, one flag off", last=None)
    tablet.range(b"t1/", b"t2/", "33 at most", most=33)
    tablet.look("GET", b"t1/080000")
    tablet.look("GET", b"t2/080100")
    tablet.look("GET", b"t2/080100", "t2/080100, metadata only", metadata=1)
    tablet.look("GETVERSION", b"t2/080030")
    tablet.look("GETNEXT", b"t1/080045")
    tablet.look("GETPREVIOUS", b"t1/080045")
    tablet.look("GETPREVIOUS", b"t1/080000")
    tablet.look("GET", b"t1/090000")
    tablet.put(b"t1/090000", b"made up")
    day.local(b"t1/080030", "t1/080030")
    day.local(b"t1/090000", "t1/090000")
    day.local(b"", "no key")


def wrong_signature(day, timers):
    one, two = timers
    day.title("A wrong signature")
    day.time = "08:10"
    command = two.command("PUT", message((1, message((3, b"t2/081000")))))
    data = two.framed(command, reading(9))
    at = data.index(model.hmac_of(two.key, command))
    assert code_of(two.send("PUT t2/081000, a bit of the hmac turned", data[:at] + bytes([data[at] ^ 1]) + data[at + 1:]).reply) == 2
    assert two.send("the right bytes", data).refusal == 4
    two.connect(two.number + 10)
    two.put(b"t2/081000", reading(9))
    one.put(b"t1/081000", reading(8))


def newer_firmware(day, timers, tablet):
    one, two = timers
    day.title("A timer of newer firmware sends fields that the box doesn't know")
    day.time = "08:20"
    value = reading(12)
    unknown = field(200, b"firmware 9.1") + field(201, 7) + b"\xd5\x0c\1\2\3\4" + b"\xd1\x0c" + bytes(8)
    part = message((3, b"t1/082000"), (5, zlib.crc32(value).to_bytes(4, "big")), (6, 6)) + unknown
    body = message((1, unknown + part)) + unknown
    command = unknown + one.command("PUT", body, extra_header=unknown) + unknown
    one.send("PUT t1/082000, unknown fields at every depth", one.framed(command, value, extra=unknown, extra_auth=unknown))
    tablet.look("GET", b"t1/082000")
    two.send("PUT t2/082000, an unknown field that is cut", two.framed(two.command("PUT", message((1, message((3, b"t2/082000")))), field(200, b"ab")[:-1])))
    two.send("PUT t2/082000 with a batchID", two.framed(two.command("PUT", message((1, message((3, b"t2/082000")))), extra_header=field(14, 3))))
    two.send("messageType 28, PEER2PEERPUSH", two.framed(two.command(28)))
    two.send("a command of no bytes", two.framed(b""))


# What the host measures: four temperatures, two of them in Fahrenheit, the last of a sensor that is silent; two utilizations.
LENT = model.Readings((model.Reading(b"HDA", 0x42126666), model.Reading(b"board", 0x42c53333, 1), model.Reading(b"roof", 0x42e08000, 1),
                       model.Reading(b"spare", 0x7fc00000)), (model.Reading(b"EN0", 0x3e800000), model.Reading(b"EN1", 0)))


def the_log(day, office, timers, tablet):
    day.title("The office asks for the log")
    day.time = "08:30"
    office.log(1, 0, asked="before anything was measured")
    lent = model.readings_bytes(LENT)
    day.measured(lent, "four temperatures, two utilizations")
    got = office.log(0, 1, 2, 6, asked="every type that is built")
    log = command_of(got.reply)[2][6]
    # 36.6 Celsius as it is, 98.6 Fahrenheit as 37, 112.25 as 44.58333.. rounded, what is no number with its name alone; 10 of 128 blocks
    assert [(t[1], t.get(2)) for t in log[3]] == [(b"HDA", 0x42126666), (b"board", 0x42140000), (b"roof", 0x42325555), (b"spare", None)]
    assert log[4] == {4: 65536, 5: 0x3da00000}
    office.log(6, 2, 6, 2, asked="limits and capacity, each asked twice")
    assert code_of(timers[0].log(1, asked="temperatures, without the permission").reply) == 3
    assert code_of(office.log(3, asked="the configuration").reply) == 16
    assert code_of(office.log(7, asked="a device's own").reply) == 7
    assert code_of(office.log(7, 3, asked="both of these").reply) == 16
    assert code_of(office.log(asked="no type").reply) == 16
    assert code_of(office.log(1, 8, asked="a type that has no name").reply) == 16
    tablet.look("GET", b"t1/080000", "t1/080000 beside the log")


def edited(day, office, timers, tablet):
    two = timers[1]
    day.title("The library of a tablet repeats fields that were edited")
    day.time = "08:40"

    def sent(client, asked, command, value=b"", before=b""):
        return code_of(client.send(asked, frame(before + signed(client.identity, client.key, command), value)).reply)

    keys = message((1, message((3, b"t1/080000"), (3, b"t1/080030"))))
    assert sent(tablet, "GET t1/080030, its key after t1/080000", tablet.command("GET", keys)) == 1
    assert sent(tablet, "GET t1/080030, a header with sequence 0 before", field(1, message((4, 0), (7, 28))) + tablet.command("GET", keys)) == 1
    draft = message((4, 2), (5, message((1, 99), (2, b"draft"))), (7, b"draft"))
    assert sent(tablet, "GET t1/080030, a draft of the message before", tablet.command("GET", keys), before=draft) == 1
    first, last = message((2, message((1, b"t1/"), (2, b"t1/"), (5, 0)))), message((2, message((2, b"t1/~"), (3, 1), (5, 2))))
    assert sent(tablet, "GETKEYRANGE t1/ to t1/~, in two bodies", tablet.command("GETKEYRANGE", first, extra=field(2, last))) == 1
    assert sent(tablet, "GET, no key after t1/080000", tablet.command("GET", message((1, message((3, b"t1/080000"), (3, b"")))))) == 16
    assert sent(tablet, "GET t1/080030, priority 2 and then 5", tablet.command("GET", keys, extra_header=field(12, 2) + field(12, 5))) == 16
    pair = message((1, message((2, b"1"), (3, b"t2/084000"))), (1, message((2, b"2"), (8, 1))))
    assert sent(two, "PUT t2/084000, its keyValue in two", two.command("PUT", pair, extra=field(2, b"")), reading(14)) == 1
    tablet.look("GET", b"t2/084000")
    assert sent(office, "SECURITY, one in each of two bodies", office.command("SECURITY", table(), extra=field(2, table()))) == 16
    assert code_of(two.look("DELETE", b"t2/084000", old=b"2").reply) == 1


def shared(day, office, timers, tablet, laundries):
    """Their keys stand by turns: the time, then whose it is. Over a protected connection the second may read the first's too."""
    one, two = laundries
    day.title("Two laundries share the box, and each tablet asks past its own keys")
    day.time = "08:50"
    own = [model.READ, model.WRITE, model.RANGE]
    office.ask("SECURITY", table(more=(acl(201, LAUNDRY_KEYS[0], scope(own, b"/one", 4)),
                                       acl(202, LAUNDRY_KEYS[1], scope(own, b"/two", 4), scope([model.READ], b"/one", 4, 1)))), "two laundries more")

    def shows(got, key):
        return (code_of(got.reply) == 7) if key is None else command_of(got.reply)[2][1][3] == key

    def lists(got, *keys):
        return code_of(got.reply) == 1 and command_of(got.reply)[2][2].get(8, []) == list(keys)

    one.connect()
    two.connect()
    for n in range(3):
        for laundry, whose in zip(laundries, ("one", "two")):
            assert code_of(laundry.put(f"085{n}/{whose}".encode(), reading(30 + n)).reply) == 1
    assert shows(one.look("GETNEXT", b"0850/one"), b"0851/one") and shows(one.look("GETNEXT", b"0852/one"), None)
    assert shows(one.look("GETPREVIOUS", b"0850/one"), None) and shows(one.look("GETPREVIOUS", b"t1/080000"), b"0852/one")
    assert shows(two.look("GETPREVIOUS", b"0850/two"), None) and shows(two.look("GETNEXT", b"0852/two"), None)
    assert shows(two.look("GETNEXT", b"0851/one", "0851/one, which is not its own"), b"0851/two")
    assert lists(one.range(b"", b"~", "everything"), b"0850/one", b"0851/one", b"0852/one")
    assert lists(two.range(b"", b"~", "everything, backwards, 2 at most", most=2, reverse=1), b"0852/two", b"0851/two")
    assert lists(two.range(b"0850/one", b"~", "from 0850/one, 1 at most", most=1), b"0850/two")
    assert lists(one.range(b"0850/two", b"0851/", "the other's between its own"))
    assert code_of(one.look("GET", b"0850/two").reply) == 3
    assert code_of(timers[0].look("GETNEXT", b"t1/080000", "t1/080000: it may write, not read").reply) == 3
    assert code_of(timers[0].range(b"t1/", b"t1/~", "t1/ to t1/~: likewise").reply) == 3
    assert shows(tablet.look("GETNEXT", b"0852/two"), b"t1/080000")
    assert shows(two.look("GETPREVIOUS", b"0852/two"), b"0851/two")
    two.protected = True
    two.connect(two.number + 10)
    assert shows(two.look("GETPREVIOUS", b"0852/two", "0852/two, protected"), b"0852/one")
    assert lists(two.range(b"", b"~", "everything, protected"), b"0850/two", b"0851/two", b"0852/two")


def limits(day, office, plain):
    day.title("Keys of 0, 1, 64 and 65 bytes, values of 384 and 385")
    day.time = "09:00"
    for length, code in (0, 16), (1, 1), (64, 1), (65, 16):
        assert code_of(office.put(b"k" * length, b"reading", asked=f"a key of {length}").reply) == code
    for length, code in (384, 1), (385, 16), (1024, 16):
        assert code_of(office.put(b"v", b"w" * length, asked=f"a value of {length}").reply) == code
    plain.send("PUT, a value of 1025", plain.framed(plain.command("PUT", message((1, message((3, b"v"))))), b"w" * 1025))
    office.put(b"n", b"", version=b"n" * 16, asked="a version of 16")
    office.put(b"n", b"", version=b"n" * 17, old=b"n" * 16, asked="a version of 17")
    office.look("DELETE", b"k", old=b"1")
    office.look("DELETE", b"k", old=b"1")
    office.look("DELETE", b"k", "k by force", force=1)
    office.look("DELETE", b"n", "n, another version given", old=b"m")


def cluster(day, office, timers):
    one = timers[0]
    day.title("The cluster version")
    day.time = "09:30"
    office.ask("SETUP", message((3, message((1, 7)))), "cluster version 7")
    one.put(b"t1/093000", reading(20), asked="t1/093000, cluster version 0")
    one.cluster = office.cluster = 7
    one.put(b"t1/093000", reading(20), asked="t1/093000, cluster version 7")
    office.ask("SETUP", message((3, b"")), "nothing given")
    office.ask("SETUP", message((3, message((1, 0)))), "cluster version 0")
    one.cluster = office.cluster = None


def full(day, office, timers, tablet):
    day.title("The store fills up")
    n = 0
    while entries(day.box.store) < 128:
        when, place = clock(240 + n // 2), n % 2
        day.time = f"{when[:2]}:{when[2:4]}"
        assert code_of(timers[place].put(f"t{place + 1}/{when}".encode(), reading(n + 20)).reply) == 1
        n += 1
    day.time = "10:30"
    assert code_of(timers[0].put(b"t1/103000", reading(90)).reply) == 14
    timers[0].put(b"t1/103000", reading(90), old=b"7", asked="t1/103000, a version given for a new key")
    timers[0].put(b"t1/100000", reading(91), version=b"2", old=b"1", asked="t1/100000 over the old one")
    timers[1].look("DELETE", b"t2/080000", old=b"1")
    timers[0].put(b"t1/103000", reading(90))
    timers[0].put(b"t1/103030", reading(92))
    tablet.range(b"t1/", b"t1/~", "t1/ to t1/~")
    tablet.look("GET", b"t1/103000")
    day.local(b"t1/103000", "t1/103000")
    assert command_of(office.log(2, asked="the capacity of a full store").reply)[2][6][4] == {4: 65536, 5: 0x3f800000}


def bad_state(day, tablet):
    day.title("What is lent is spoilt")
    day.time = "17:00"
    place = 512 + 120
    old = day.box.store[place]
    day.overwrite("block", place, old ^ 1, "a bit of a stored value turned")
    tablet.look("GET", b"t1/103000")
    day.local(b"t1/103000", "t1/103000")
    day.overwrite("block", place, old, "turned back")
    count = day.box.record[8]
    day.overwrite("device", 8, 9, "nine ACLs in the device record")
    tablet.look("GET", b"t1/103000")
    day.overwrite("device", 8, count, "set back")
    day.lend(4095, "a reply buffer of 4,095 bytes")
    tablet.look("GET", b"t1/103000")
    day.lend(4096, "a reply buffer of 4,096 bytes")
    tablet.look("GET", b"t1/103000")
    lent = day.readings
    day.measured(b"\5" + lent[1:], "five temperatures")
    assert tablet.look("GET", b"t1/103000").refusal == 7
    half = tablet.framed(tablet.command("NOOP"))
    assert tablet.send("the first 40 bytes of a NOOP", half[:40]).refusal == 5
    assert tablet.send("the whole of it", half).refusal == 7
    day.measured(lent, "four temperatures")
    tablet.look("GET", b"t1/103000")


def place_of(store, key):
    """Where the block of a key begins in a good store."""
    return next(at for at in range(0, len(store), model.BLOCK) if model.entry_of(store[at:at + model.BLOCK]).key == key)


def rescue(day, timers, tablet):
    one, two = timers
    day.title("Two blocks of the store go bad, and the rest is rescued")
    day.time = "17:30"
    two.look("DELETE", b"t2/080030", "t2/080030 by force", force=1)
    two.look("DELETE", b"t2/080100", "t2/080100 by force", force=1)
    assert code_of(one.put(b"t1/173000", reading(95)).reply) == code_of(two.put(b"t2/173000", reading(96)).reply) == 1
    first, second = place_of(day.box.store, b"t1/100000"), place_of(day.box.store, b"t1/173000")
    day.overwrite("block", first + 7, 1, "byte 7 of t1/100000's block set")
    check = model.check_of(day.box.store[first:first + 508])
    day.overwrite("block", first + 511, check[3], "its check made right")
    assert day.box.store[first + 508:first + 512] == check
    day.overwrite("block", second + 120, day.box.store[second + 120] ^ 1, "a bit of t1/173000's value turned")
    assert tablet.look("GET", b"t2/173000").refusal == one.put(b"t1/173000", reading(97), force=1, asked="t1/173000 by force").refusal == 2
    day.local(b"t2/173000", "t2/173000")
    report = day.rescue("the rescue of 128 blocks")
    assert report.count(model.KEPT) == 126 and report[first // model.BLOCK] == model.RULE_BROKEN and report[second // model.BLOCK] == model.CHECK_WRONG
    assert code_of(tablet.look("GET", b"t2/173000").reply) == 1
    day.local(b"t2/173000", "t2/173000")
    assert code_of(tablet.look("GET", b"t1/173000").reply) == code_of(tablet.look("GET", b"t1/100000").reply) == 7
    tablet.range(b"t1/", b"t1/~", "t1/ to t1/~, backwards, 3 at most", most=3, reverse=1)
    assert code_of(one.put(b"t1/173000", reading(97), asked="t1/173000 anew").reply) == 1
    tablet.look("GET", b"t1/173000")
    assert day.rescue("the rescue of a good store").count(model.KEPT) == 127
    tablet.look("GET", b"t1/173000")


def evening(day, office, timers):
    day.title("The office takes the timers out")
    day.time = "18:00"
    office.ask("SECURITY", security(acl(1, OFFICE_KEY, scope(ALL, tls=1)), acl(-7, TABLET_KEY, scope([model.READ, model.RANGE]))), "office and tablet")
    timers[0].put(b"t1/180000", reading(99))
    office.ask("NOOP")
    day.end()


def made():
    day = Day()
    office = Client(day, 0, "office", 1, HOST_KEY, 1, True)
    timers = Client(day, 1, "timer 1", 101, TIMER_KEYS[0], 11), Client(day, 2, "timer 2", 102, TIMER_KEYS[1], 12)
    tablet = Client(day, 3, "tablet", -7, TABLET_KEY, 13)
    plain = Client(day, 4, "office", 1, OFFICE_KEY, 3)
    laundries = Client(day, 6, "laundry 1", 201, LAUNDRY_KEYS[0], 14), Client(day, 7, "laundry 2", 202, LAUNDRY_KEYS[1], 15)
    set_up(day, office, plain, tablet)
    readings(day, timers, office)
    reading_back(day, tablet)
    wrong_signature(day, timers)
    newer_firmware(day, timers, tablet)
    the_log(day, office, timers, tablet)
    edited(day, office, timers, tablet)
    shared(day, office, timers, tablet, laundries)
    limits(day, office, plain)
    cluster(day, office, timers)
    full(day, office, timers, tablet)
    bad_state(day, tablet)
    rescue(day, timers, tablet)
    evening(day, office, timers)
    return {"stdin": "".join(day.events), "stdout": "".join(day.written)}


def main():
    bad = False
    for name, text in made().items():
        path = os.path.join(CRATE, name)
        if sys.argv[1:] == ["--check"]:
            same = os.path.exists(path) and open(path).read() == text
            print(f"program_site/{name}: {'same' if same else 'NOT THE SAME'}")
            bad |= not same
        else:
            open(path, "w").write(text)
    return bad


if __name__ == "__main__":
    sys.exit(main())
