"""The plans of docs/SITES.md, each played over a simulated day: 2,880 readings of each timer, read back by a tablet, over TCP at full speed.

The timers of a group share a connection; what they put between two rounds of the tablet is sent at once. A reply must be byte for byte the one expected. The
image is in memory where that can be: other tests try the disk.
"""
import hashlib
import hmac
import os
import pathlib
import re
import subprocess
import tempfile
import time

import layout
import model
from held import hold, same
from program import KEY, TOP
from wire import Client

MINUTES = 300
READINGS = 2880
START = 1_763_337_600  # a midnight in Unix time
TABLET, FIRST_GROUP = 20, 101
MISSED = 7  # the tablet misses every seventh round
MEMORY = "/dev/shm"
PUT, GET, SUCCESS, NO_SPACE = 4, 2, 1, 14


def field(number, content):
    """A field of under 128 bytes."""
    return bytes([number << 3 | 2, len(content)]) + content


class Caller:
    """A connection of an identity. Requests are sent together; what is expected is compared when it has come."""

    def __init__(self, server, box, identity, key):
        with_number = Client(server.address, box, identity, key)
        self.peer, self.identity, self.key, self.sequence = with_number.peer, identity, key, with_number.sequence
        self.peer.socket.settimeout(MINUTES)
        self.number = b"\x18" + model.varint(with_number.number)
        self.requests, self.expected = [], []

    def signed(self, command, value):
        """The bytes of a message with its signature, in a frame."""
        auth = b"\x08" + model.varint(self.identity) + field(2, hmac.digest(self.key, command, "sha1"))
        return model.frame(b"\x20\x01" + field(5, auth) + b"\x3a" + model.varint(len(command)) + command, value)

    def ask(self, kind, pair, value=b"", told=b"", shown=b"", status=SUCCESS):
        """A request with a keyValue; `told` and `shown` are keyValue and value of the reply that is expected."""
        self.sequence += 1
        sequence = model.varint(self.sequence)
        body = field(2, field(1, pair))
        self.requests.append(self.signed(field(1, self.number + b"\x20" + sequence + b"\x38" + bytes([kind])) + body, value))
        answered = field(2, field(1, told)) if status == SUCCESS else b""
        header = field(1, self.number + b"\x30" + sequence + b"\x38" + bytes([kind - 1]))
        self.expected.append(self.signed(header + answered + field(3, b"\x08" + bytes([status])), shown))

    def send(self):
        self.peer.send(b"".join(self.requests))
        self.requests.clear()

    def heard(self, what):
        wanted = b"".join(self.expected)
        same(f"replies to {what}", self.peer.bytes(len(wanted)), wanted)
        count = len(self.expected)
        self.expected.clear()
        return count


class Timer:
    """A timer of a plan: its readings, by slot."""

    def __init__(self, prefix, caller, slots):
        self.prefix, self.caller, self.slots, self.held = prefix, caller, slots, {}

    def key(self, n):
        return b"%s/%02d" % (self.prefix, (START // 30 + n) % self.slots)

    def reading(self, n):
        """The n-th reading of the day, as its entry."""
        value = b"%s WBGT %d.%d C" % (self.prefix, 25 + n % 9, n % 10)
        return model.Entry(self.key(n), b"%d" % (START + 30 * n), hashlib.sha1(value).digest(), 1, value)

    def put(self, n):
        entry = self.reading(n)
        pair = field(2, entry.version) + field(3, entry.key) + field(5, entry.tag) + b"\x30\x01\x40\x01"
        self.caller.ask(PUT, pair, entry.value)
        self.held[entry.key] = entry


class Plan:
    """A row of the table in docs/SITES.md, with the section of its own: who is there, what the office does first, and the day."""

    def __init__(self, site, room, timers):
        text = (TOP / "docs" / "SITES.md").read_text()
        row = re.search(rf"^\| {timers} \| (\d+) \| (\d+) \| (\d+) \| (\d+) \| ([\d.]+) min \| (\d+) min \|$", text, re.M)
        groups, self.each, self.slots, self.places = map(int, row.groups()[:4])
        self.letters, self.round = "abcdef"[:groups], int(row[6]) * 2
        same("timers of the plan", groups * self.each, timers)
        same("places of the plan", timers * self.slots, self.places)
        same("minutes that the slots hold", float(row[5]), self.slots / 2)
        hold("the tablet may miss a round", 2 * self.round <= self.slots and self.places * 10 < model.MOST_BLOCKS * 9)
        title = {1: "One timer", 8: "Eight timers", 20: "Twenty timers"}[timers]
        self.table, self.commands = re.findall(r"```\n(.*?)```", text[text.index(f"## {title}\n"):], re.S)[:2]
        self.site, self.image = site, pathlib.Path(room) / "box.img"

    def set_up(self):
        """A box with the plan's table and slots, made by the plan's own words."""
        site = self.site
        (site.path("key")).rename(site.path("office.key"))
        for name in "tablet", *self.letters:
            site.write(f"{name}.key", f"key of {name}".encode())
        site.write("table.txt", self.table.encode())
        made = site.run("format", "--image", self.image, "--key-file", "office.key")
        same("format", (made.code, made.err), (0, ""))
        self.server = site.serve(self.image)
        self.given = {**os.environ, "RIDGELADLE_SERVER": "%s:%d" % self.server.address, "RIDGELADLE_KEY": KEY.decode(),
                      "PATH": f"{site.program.parent}:{os.environ['PATH']}"}
        same("security", self.shell("ridgeladle security table.txt"), "SUCCESS\n")
        same("the commands that make the slots", self.shell(self.commands), "SUCCESS\n" * self.places)
        box = layout.read(self.image)
        self.groups = {group: self.caller(box, FIRST_GROUP + n, f"key of {group}") for n, group in enumerate(self.letters)}
        self.tablet = self.caller(box, TABLET, "key of tablet")
        self.at = [Timer(f"timer/{group}/{n + 1}".encode(), caller, self.slots) for group, caller in self.groups.items() for n in range(self.each)]

    def caller(self, box, identity, key):
        return Caller(self.server, box, identity, key.encode())

    def shell(self, words):
        done = subprocess.run(["bash", "-c", words], capture_output=True, text=True, timeout=MINUTES, cwd=self.site.folder, env=self.given, check=False)
        return done.stdout + done.stderr

    def put(self, first, last):
        """Each timer puts its readings of some time."""
        for n in range(first, last):
            for timer in self.at:
                timer.put(n)
        for caller in self.groups.values():
            caller.send()
        return sum(caller.heard(f"PUT of group {group}, {first} to {last}") for group, caller in self.groups.items())

    def read(self, first, last):
        """The tablet gets what is new."""
        for timer in self.at:
            for n in range(first, last):
                entry = timer.reading(n)
                told = field(3, entry.key) + field(4, entry.version) + field(5, entry.tag) + b"\x30\x01"
                self.tablet.ask(GET, field(3, entry.key), told=told, shown=entry.value)
        self.tablet.send()
        return self.tablet.heard(f"GET {first} to {last}")

    def day(self):
        """A day with no place free; gives how many readings were put and how many were read."""
        self.fill()
        put = got = read_to = 0
        for number, first in enumerate(range(0, READINGS, self.round)):
            last = min(READINGS, first + self.round)
            put += self.put(first, last)
            if number % MISSED != MISSED - 1 or last == READINGS:
                got, read_to = got + self.read(read_to, last), last
        return put, got

    def fill(self):
        """A timer puts keys outside the plan until no place is free."""
        wild = self.at[0].caller
        free = model.MOST_BLOCKS - self.places
        for n in range(free + 1):
            key = self.at[0].prefix + b"/more%03d" % n
            wild.ask(PUT, field(3, key) + b"\x40\x01", b"more", status=SUCCESS if n < free else NO_SPACE)
        wild.send()
        wild.heard("keys outside the plan")
        self.more = [self.at[0].prefix.decode() + f"/more{n:03}" for n in range(free)]

    def ended(self):
        """The box is full of what the wild timer put; the office deletes that, and the last readings are there."""
        same("status of the box that is full", self.shell("ridgeladle status >/dev/null 2>&1; echo $?"), "75\n")
        listed = self.shell("ridgeladle range timer/a/1/more timer/a/1/more~").split()
        same("what range finds outside the plan", listed, self.more)
        same("deleting it", self.shell(f"for key in {' '.join(listed)}; do ridgeladle delete $key --force; done"), "SUCCESS\n" * len(listed))
        same("status", self.shell("ridgeladle status; echo $?"), f"{self.places} of 128 blocks used\ncluster version 0\n0\n")
        same("a key outside the group's", self.shell("ridgeladle put timer/z/1/00 x --force --identity 101 --key-file a.key 2>/dev/null; echo $?"), "3\n")
        wanted = sorted((entry for timer in self.at for entry in timer.held.values()), key=lambda entry: entry.key)
        same("what the box holds", model.entries_of(layout.read(self.image).store), wanted)


    def example(self):
        """The commands of one timer, as docs/SITES.md has them: a reading that is some seconds old, in its slot."""
        text = re.search(r"```\n(now=.*?)```", (TOP / "docs" / "SITES.md").read_text(), re.S)[1]
        same("the commands of a timer", self.shell("reading='WBGT 31.4 C'; " + text), "SUCCESS\n")
        newest = max(model.entries_of(layout.read(self.image).store), key=lambda entry: int(entry.version))
        at = int(newest.version)
        same("key and value of the reading", (newest.key, newest.value), (b"timer/b/2/%02d" % (at // 30 % self.slots), b"WBGT 31.4 C"))
        hold(f"a reading of now: {newest}", time.time() - MINUTES < at <= time.time())


def played(site, timers):
    with tempfile.TemporaryDirectory(dir=MEMORY if os.access(MEMORY, os.W_OK) else None) as room:
        plan = Plan(site, room, timers)
        plan.set_up()
        put, got = plan.day()
        same("readings put and read", (put, got), (timers * READINGS, timers * READINGS))
        plan.ended()
        if timers == 8:
            plan.example()
        plan.server.end()
    return f"a day of {put} readings in {plan.places} places, each read back, with all other places taken"


def sites_1(site):
    """docs/SITES.md's plan for one timer, over a day."""
    return played(site, 1)


def sites_8(site):
    """docs/SITES.md's plan for eight timers, over a day."""
    return played(site, 8)


def sites_20(site):
    """docs/SITES.md's plan for twenty timers, over a day."""
    return played(site, 20)


def sites_demo(site):
    """`make demo`, in a second, ends well and follows the plan for eight timers."""
    plan, source = Plan(site, site.folder, 8), (TOP / "host" / "demo").read_text()
    said = re.search(r'^GROUPS, EACH, SLOTS = "(\w+)", (\d+), (\d+)$', source, re.M).groups() + re.search(r"^LOOK = (\d+)", source, re.M).groups()
    same("groups, timers of a group, slots and the tablet's time", said, (plan.letters, str(plan.each), str(plan.slots), str(plan.round)))
    path, _ = site.format()
    server = site.serve(path, "--protected-listen", "127.0.0.1:0")
    words = ["--server", "%s:%d" % server.address, "--protected-server", "%s:%d" % server.protected, "--key-file", site.path("key"), "--seconds", "1"]
    done = subprocess.run([TOP / "host" / "demo", *words], capture_output=True, text=True, timeout=MINUTES, check=False)
    same(f"exit code and error of the demo, which said {done.stdout}", (done.returncode, done.stderr), (0, ""))
    last = done.stdout.splitlines()[-1]
    hold(f"the demo's last line: {last}", last.endswith("every answer was the one expected."))
    used = {entry.key for entry in model.entries_of(layout.read(path).store)}
    same("the keys that it left", used, {b"timer/%s/%d/%02d" % (group.encode(), n + 1, slot)
                                         for group in plan.letters for n in range(plan.each) for slot in range(plan.slots)})
    return last


TESTS = [sites_1, sites_8, sites_20, sites_demo]
