"""Sixteen connections at once. What each does under its own keys is decided, so each reply must be the model's. On the keys that all share they compete by
compare-and-put: whatever order the server took, it must be one order, and all that anyone was told must agree with it and with the clock."""
import bisect
import collections
import random
import threading
import time

import layout
import model
from held import Failed, hold, same, soon
from messages import log_tree
from wire import Client, command_of, pair, setup, span

WORKERS, SHARED = 16, [b"shared/%d" % n for n in range(5)]
OWN = frozenset({model.READ, model.WRITE, model.DELETE, model.RANGE})

# What was asked of a shared key, and heard; `last` is the connection's last sequence before, `old` the version that a PUT expects.
Event = collections.namedtuple("Event", "sent received kind key old value data reply last client")


def key_of(identity):
    return b"key of %d" % identity


def table():
    """Eight identities, each for two connections: its own keys, the shared ones, and what has no key."""
    return model.Table(0, tuple(model.Acl(n, key_of(n), (
        model.Scope(OWN, 0, b"%d/" % n), model.Scope(frozenset({model.READ, model.WRITE}), 0, b"shared/"),
        model.Scope(frozenset({model.GETLOG, model.SETUP})))) for n in range(1, 9)))


class Worker(threading.Thread):
    """One connection. Its box of the model has its own keys alone; first and last of them always stand, so that no neighbour's key is ever the next."""

    def __init__(self, server, place, turns, seed):
        super().__init__(daemon=True)
        self.r, self.turns, self.identity, self.failure, self.events = random.Random(seed), turns, 1 + place // 2, None, []
        self.prefix = b"%d/%c/" % (self.identity, b"ab"[place % 2])
        self.keys = [self.prefix + b"k%d" % n for n in range(5)]
        self.client = Client(server.address, model.Box(bytes(8 * model.BLOCK), model.record_of(table())), self.identity, key_of(self.identity))

    def run(self):
        try:
            for end in b"!", b"~":
                same("code of the first PUT", self.client.put(self.prefix + end, b"an end"), 1)
            for _ in range(self.turns):
                self.client.say("own requests", b"".join(self.own() for _ in range(self.r.choice((1, 1, 2, 3, 8)))))
                self.count_up(self.r.choice(SHARED))
            self.client.finished("its turns")
        except (Failed, OSError) as why:
            self.failure = why

    def own(self):
        """A request whose reply no other connection has a hand in."""
        r, key = self.r, self.r.choice(self.keys)
        old = next((entry.version for entry in model.entries_of(self.client.box.store) if entry.key == key), b"")
        given = old if r.random() < .8 else b"?"
        made = {"PUT": lambda: (pair(key, b"%d" % r.randrange(99), given, force=r.choice((None, None, 1))), r.randbytes(r.randrange(385))),
                "DELETE": lambda: (pair(key, old=old, force=r.choice((None, 1))), b""), "GET": lambda: (pair(key), b""),
                "GETVERSION": lambda: (pair(key), b""), "GETNEXT": lambda: (pair(key), b""), "GETPREVIOUS": lambda: (pair(key), b""),
                "GETKEYRANGE": lambda: (span(self.prefix, self.prefix + b"~", reverse=r.choice((None, 1))), b""),
                "GETLOG": lambda: (log_tree([6, 1]), b""), "SETUP": lambda: (setup(0), b""), "NOOP": lambda: (None, b""),
                "FLUSHALLDATA": lambda: (None, b""), "SECURITY": lambda: (log_tree([1]), b"")}
        kind = r.choices(list(made), (30, 10, 10, 5, 5, 5, 10, 3, 2, 3, 2, 1))[0]
        body, value = made[kind]()
        if kind in ("GET", "PUT") and r.random() < .05:
            body = pair(b"%d/not mine" % (self.identity % 8 + 1))
        return self.client.request(kind, body, value).bytes()

    def count_up(self, key):
        """Reads a shared key, and puts the next version if it is still the same."""
        seen = self.shared("GETVERSION" if self.r.random() < .5 else "GET", key)
        old = command_of(seen).get(2, {}).get(1, {}).get(4, b"")
        self.shared("PUT", key, old, b"%d of %s" % (self.client.sequence, self.prefix))

    def shared(self, kind, key, old=b"", value=b""):
        body = pair(key, b"%d" % (int(old or b"0") + 1), old) if kind == "PUT" else pair(key)
        data, last = self.client.request(kind, body, value).bytes(), self.client.connection.last
        sent = time.monotonic()
        self.client.peer.send(data)
        reply = self.client.peer.frame()
        self.events.append(Event(sent, time.monotonic(), kind, key, int(old or b"0"), value, data, reply, last, self.client))
        self.client.connection.last = self.client.sequence
        return reply


def code_and_version(event):
    command = command_of(event.reply)
    return command[3][1], int(command.get(2, {}).get(1, {}).get(4, b"0"))


def chain_of(key, events):
    """The accepted PUTs of a shared key, in the order of their versions; each version has one winner, and none is left out."""
    accepted = sorted((event for event in events if event.kind == "PUT" and code_and_version(event)[0] == 1), key=lambda event: event.old)
    same(f"versions that were won of {key}", [event.old for event in accepted], list(range(len(accepted))))
    return accepted


class Highest:
    """The highest version of those whose time is before a time."""

    def __init__(self, pairs):
        self.times, self.versions, best = [], [], 0
        for moment, version in sorted(pairs):
            best = max(best, version)
            self.times.append(moment)
            self.versions.append(best)

    def before(self, moment):
        place = bisect.bisect_left(self.times, moment)
        return self.versions[place - 1] if place else 0


def hold_order(key, events, chain):
    """All that was said of a shared key agrees with the chain and with the clock: nobody saw a version before it was sent, nor an older one than what
    somebody had been told before; and each reply is the model's for the version that it saw."""
    known = []
    for event in events:
        code, version = code_and_version(event)
        known.append((event.received, event.old + 1 if event.kind == "PUT" and code == 1 else version))
    told, sent = Highest(known), Highest((event.sent, event.old + 1) for event in chain)
    for event in events:
        code, version = code_and_version(event)
        low, high = told.before(event.sent), sent.before(event.received)
        if event.kind == "PUT":
            fits = low <= event.old <= high if code == 1 else any(seen != event.old for seen in range(low, high + 1))
            version = event.old if code == 1 else low if low != event.old else high
        else:
            fits = low <= version <= high
        hold(f"{event.kind} of {key}, version {event.old}, answered {code}, when versions {low} to {high} could stand there (it saw {version})", fits)
        same(f"reply to {event.kind} of {key} at version {version}", event.reply, model_reply(event, chain, version))


def model_reply(event, chain, version):
    """What the model answers where that version stands."""
    entries = [model.Entry(event.key, b"%d" % version, value=chain[version - 1].value)] if version else []
    box = model.Box(model.store_of(entries, model.BLOCK * 2), model.record_of(table()))
    connection = model.Connection(event.client.number, False, last=event.last)
    return model.answer(box, connection, event.client.readings, event.data).reply


def after_all(workers, chains):
    """The model's box after the own changes and, in the order of their chains, the shared ones."""
    own = [entry for worker in workers for entry in model.entries_of(worker.client.box.store)]
    box = model.Box(model.store_of(own, 128 * model.BLOCK), model.record_of(table()))
    for event in (event for chain in chains for event in chain):
        model.answer(box, model.Connection(event.client.number, False), event.client.readings, event.data)
    return box


def sixteen(site):
    """Sixteen connections at once, on own and shared keys: own replies are the model's, shared versions form one chain that all replies and the clock agree
    with, the image is the model's after it, and no file that it replaced stays open."""
    path = site.image(model.Box(bytes(128 * model.BLOCK), model.record_of(table())))
    server = site.serve(path)
    workers = [Worker(server, place, 400 if site.thorough else 60, site.random.random()) for place in range(WORKERS)]
    for worker in workers:
        worker.start()
    for worker in workers:
        worker.join()
    for worker in workers:
        hold(f"connection {worker.prefix}: {worker.failure}", worker.failure is None)
    soon("the files that were the image are closed", lambda: server.nameless() == 0)
    events = [event for worker in workers for event in worker.events]
    chains = []
    for key in SHARED:
        mine = [event for event in events if event.key == key]
        chains.append(chain_of(key, mine))
        hold_order(key, mine, chains[-1])
    layout.same_image("after sixteen connections", path, after_all(workers, chains))
    own, won = sum(worker.client.replies for worker in workers), sum(map(len, chains))
    lost = sum(event.kind == "PUT" for event in events) - won
    hold(f"{won} won and {lost} lost: they did not compete", won and lost)
    return f"{own} own replies are the model's; {len(events)} shared ones agree with {len(chains)} chains, {won} versions won and {lost} lost; the image is too"


TESTS = [sixteen]
