"""What the server says on standard error: it never waits for a reader, counts what it leaves out, and says when and how grave."""
import datetime
import os
import re
import signal
import time

import layout
from disk import Blocked, unanswered
from held import hold, same, soon
from peers import made
from wire import Client, Peer, pair

RUBBISH, REFUSED = 400, "closed by the box"
MOST, TIME = 20, 10  # lines of a kind, in so many seconds
LINE = re.compile(r"(\d{4}-\d\d-\d\dT\d\d:\d\d:\d\d\.\d{3})Z ridgeladle (error|warning|info): (.+)")


def rubbish(server, count):
    """Peers whom the box refuses."""
    for _ in range(count):
        with Peer(server.address) as peer:
            peer.send(b"rubbish")
            peer.shut()
            hold("rubbish was not answered", peer.rest())


def parsed(words):
    """The lines as (time, level, words); each must have all three."""
    lines = [(line, LINE.fullmatch(line)) for line in words.splitlines()]
    hold(f"lines without time and level: {[line for line, read in lines if not read][:3]}", all(read for _, read in lines))
    return [(datetime.datetime.fromisoformat(read[1] + "+00:00").timestamp(), read[2], read[3]) for _, read in lines]


def said_of(lines, kind):
    """How many lines of a kind were written, how many more of it were counted, and how many of all were dropped."""
    words = [words for _, _, words in lines]
    more = sum(int(line.split()[0]) for line in words if re.match(rf"\d+ more messages .*{kind}", line))
    dropped = sum(int(line.split()[0]) for line in words if re.match(r"\d+ messages were dropped", line))
    return sum(f": {kind}" in line and "more messages" not in line for line in words), more, dropped


def log(site):
    """Each line has a time and a level; of one kind some are written and the rest is counted; --log-level leaves out lesser ones."""
    path, _ = site.format(blocks=2)
    began = time.time()
    server = site.serve(path)
    rubbish(server, RUBBISH)
    with Peer(server.address) as peer:
        peer.send(made("NOOP")[:20])
    soon("one who left amid a request is named", lambda: "left after 20 bytes" in server.errors())
    took = time.time() - began
    server.end(signal.SIGTERM)
    lines = parsed(server.errors())
    written, more, dropped = said_of(lines, REFUSED)
    same("messages written, counted and dropped", written + more + dropped, RUBBISH)
    hold(f"{written} lines of a kind in {took:.1f} s", 1 <= written <= MOST * (1 + took // TIME))
    hold("times of the lines", all(began - 1 <= when <= time.time() + 1 for when, *_ in lines) and sorted(lines, key=lambda line: line[0]) == lines)
    same("levels", {level for _, level, _ in lines}, {"warning", "info"})
    for level, wanted in ("error", set()), ("warning", {"warning"}), ("info", {"warning", "info"}):
        server = site.serve(path, "--log-level", level)
        rubbish(server, 2)
        soon("refused peers are named", lambda server=server, wanted=wanted: not wanted or server.errors().count(REFUSED) == 2)
        server.end(signal.SIGTERM)
        same(f"levels with --log-level {level}", {level for _, level, _ in parsed(server.errors())}, wanted)
    same("serve --log-level loud", site.run("serve", "--image", path, "--log-level", "loud").code, 64)
    return f"{RUBBISH} refused peers: {written} lines, {more} counted, {dropped} dropped; times, and levels by --log-level"


class Unread:
    """A pipe that is full, for a server's standard error, until it is drained."""

    def __init__(self, site):
        self.path, self.read = site.path("errors"), b""
        os.mkfifo(self.path)
        self.end = os.open(self.path, os.O_RDWR | os.O_NONBLOCK)
        try:
            while True:
                os.write(self.end, b"full\n")
        except BlockingIOError:
            pass
        self.under = ["sh", "-c", 'exec "$@" 2>errors', "sh"]

    def drain(self):
        """What was said so far."""
        try:
            while True:
                self.read += os.read(self.end, 65536)
        except BlockingIOError:
            return re.sub(r"\A(full\n)*f?u?l?l?(?=\d{4}-)", "", self.read.decode())


def log_unread(site):
    """Standard error that nobody reads: the server accepts, answers, refuses what the disk refuses, and says later what it dropped."""
    site.path("disk").mkdir()
    path, box = site.format("disk/box.image", 4)
    unread = Unread(site)
    server = site.serve(path, under=unread.under)
    with Client(server.address, box) as client:
        same("code of the first PUT", client.put(b"k", b"old"), 1)
        rubbish(server, RUBBISH)
        with Blocked(site):
            unanswered(server, box, "PUT", pair(b"k", b"2", force=1), b"new")
            same("code of a GET on a connection that stood", client.ask("GET", pair(b"k")), 1)
        same("code of a PUT", client.put(b"k", b"newer", force=1), 1)
    layout.same_image("after all", path, box)
    soon("what was dropped is said", lambda: "dropped" in unread.drain())
    with Peer(server.address) as peer:
        peer.send(made("NOOP")[:20])
    soon("one who left amid a request is named", lambda: "left after 20 bytes" in unread.drain())
    server.end(signal.SIGTERM)
    written, more, dropped = said_of(parsed(unread.drain()), REFUSED)
    hold(f"{written} written, {more} counted, {dropped} dropped", dropped and written + more <= RUBBISH <= written + more + dropped <= RUBBISH + 2)
    return f"{RUBBISH} refused peers and a disk that refused, with nobody reading: {written} lines, {more} counted, {dropped} dropped"


def full(site):
    """A warning when nine of ten blocks are used, one when a PUT finds no room, each again only when there was room meanwhile, and one at a start."""
    path, box = site.format(blocks=10)
    server, nearly, none = site.serve(path), r"warning: \d+ of 10 blocks are used: 90 %", r"warning: .*NO_SPACE"

    def warned():
        return tuple(len(re.findall(kind, server.errors())) for kind in (nearly, none))

    def holds(what, wanted):
        soon(f"{what}: {wanted} warnings, {warned()}", lambda: warned() == wanted)

    with Client(server.address, box) as client:
        for n in range(8):
            same("code of a PUT", client.put(b"k%d" % n, b"v"), 1)
        same("warnings at eight of ten", warned(), (0, 0))
        for n, wanted in (8, (1, 0)), (9, (1, 0)):
            same("code of a PUT", client.put(b"k%d" % n, b"v"), 1)
            holds(f"{n + 1} of ten", wanted)
        for _ in range(5):
            same("code of one too many", client.put(b"more", b"v"), 14)
        holds("NO_SPACE five times", (1, 1))
        for key, wanted in ([b"k0"], (1, 2)), ([b"k1", b"k2"], (2, 3)):
            for n in key:
                same("code of a DELETE", client.ask("DELETE", pair(n, force=1)), 1)
            for n in key:
                same("code of a PUT", client.put(n, b"v"), 1)
            same("code of one too many", client.put(b"more", b"v"), 14)
            holds("after there was room", wanted)
    server.end(signal.SIGTERM)
    same("warnings in all", warned(), (2, 3))
    server = site.serve(path)
    holds("a start with all blocks used", (1, 0))
    layout.same_image("after all", path, box)
    return "10 blocks filled three times: 2 warnings of 90 %, 3 of NO_SPACE for 7 of them, 1 at a start"


TESTS = [log, log_unread, full]
