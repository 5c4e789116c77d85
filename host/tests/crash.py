"""The server is killed under load: what was acknowledged is on disk, and nothing that was not asked for."""
import copy
import pathlib
import random
import signal
import threading
import time

import layout
import model
from held import Failed, Lost, hold, same, soon
from program import KEY
from wire import NO_READINGS, Client, all_scope, code_of, command_of, pair, setup

WRITERS, KEYS, AT_ONCE = 6, 8, 3
SIGNALS = [signal.SIGKILL] * 8 + [signal.SIGTERM, signal.SIGINT]


def record(cluster):
    return model.record_of(model.Table(cluster, (model.Acl(1, KEY, (all_scope(),)),)))


class State:
    """What is known between kills. Cluster version `sure` was acknowledged last, `asked` was sent last; it only grows. `stores` are the writers', with their
    own keys alone, after what was acknowledged; `counts` the last versions they sent."""

    def __init__(self):
        self.sure = self.asked = 0
        self.stores, self.counts = [bytes((KEYS + 1) * model.BLOCK)] * WRITERS, [0] * WRITERS
        self.acknowledged = [0] * WRITERS


class Load(threading.Thread):
    """A connection that works until the server is gone."""

    def __init__(self, state, server, cut, seed):
        super().__init__(daemon=True)
        self.state, self.server, self.cut, self.r, self.failure = state, server, cut, random.Random(seed), None
        self.connected = threading.Event()

    def run(self):
        try:
            with Client(self.server.address, model.Box(bytes(model.BLOCK), record(self.state.sure))) as client:
                self.connected.set()
                self.work(client)
        except (Lost, OSError) as why:
            self.failure = None if self.cut.is_set() else f"the connection was lost while the server ran: {why!r}"
        except Failed as why:
            self.failure = why
        finally:
            self.connected.set()

    @staticmethod
    def heard(client):
        reply = client.peer.frame()
        if not reply:
            raise Lost("closed without a reply")
        return reply


class Writer(Load):
    """Changes its own keys, up to AT_ONCE requests on their way: `waiting` has each with the cluster version that it names."""

    def __init__(self, place, *given):
        super().__init__(*given)
        self.place, self.prefix, self.waiting, self.connection = place, b"w%d/" % place, [], None

    def work(self, client):
        self.connection = client.connection
        while True:
            for _ in range(self.r.randint(0, AT_ONCE - len(self.waiting)) or not self.waiting):
                cluster = self.state.sure
                kind, body, value = self.change()
                data = client.request(kind, body, value, cluster=cluster).bytes()
                self.waiting.append((data, cluster))
                client.peer.send(data)
            self.take(self.heard(client))

    def change(self):
        """Mostly changes; key 0 is only ever put."""
        r, place = self.r, self.r.randrange(KEYS)
        key = self.prefix + b"%d" % place
        entries = model.entries_of(self.state.stores[self.place])
        old = next((entry.version for entry in entries if entry.key == key), b"")
        if place and r.random() < .3:
            return "DELETE", pair(key, old=old, force=r.choice((None, 1))), b""
        if r.random() < .1:
            return "GET", pair(key), b""
        self.state.counts[self.place] += 1
        version = b"%d" % self.state.counts[self.place]
        return "PUT", pair(key, version, old, force=1 if place == 0 or r.random() < .5 else None), version * r.randrange(1, 60)

    def after(self, store, data, cluster):
        """The store, the connection and the reply of the model, after a request that finds this cluster version."""
        box, connection = model.Box(store, record(cluster)), copy.copy(self.connection)
        reply = model.answer(box, connection, NO_READINGS, data).reply
        return box.store, connection, reply

    def take(self, reply):
        """The first request on its way was done as the model does it, or found a newer cluster version."""
        data, cluster = self.waiting[0]
        store, connection, wanted = self.after(self.state.stores[self.place], data, cluster)
        if reply != wanted and self.state.asked > cluster:
            store, connection, wanted = self.after(self.state.stores[self.place], data, cluster + 1)
        same("reply under load", reply, wanted)
        self.state.acknowledged[self.place] += store != self.state.stores[self.place]
        self.state.stores[self.place], self.connection = store, connection
        del self.waiting[0]

    def candidates(self):
        """The stores that may be found: after what was acknowledged, and any number of the requests on their way, in their order."""
        latest = {self.state.stores[self.place]}
        found = set(latest)
        for data, cluster in self.waiting:
            done = {self.after(store, data, cluster)[0] for store in latest}
            latest = done | latest if self.state.asked > cluster else done
            found |= latest
        return found


class Setter(Load):
    """Raises the cluster version now and then, once the others are connected: their first NOOP names the version that was there before."""

    def __init__(self, others, *given):
        super().__init__(*given)
        self.others = others

    def work(self, client):
        for load in self.others:
            load.connected.wait()
        while True:
            time.sleep(self.r.random() * .03)
            self.state.asked = self.state.sure + 1
            client.peer.send(client.request("SETUP", setup(self.state.asked), cluster=self.state.sure or None).bytes())
            same("code of SETUP", code_of(self.heard(client)), 1)
            self.state.sure = self.state.asked


class Reader(Load):
    """Reads each writer's key 0: the versions that it saw."""

    def work(self, client):
        self.seen = {}
        while True:
            place = self.r.randrange(WRITERS)
            client.peer.send(client.request("GETVERSION", pair(b"w%d/0" % place), cluster=self.state.sure or None).bytes())
            command = command_of(self.heard(client))
            if command[3][1] == 1:
                version = int(command[2][1][4])
                hold("a version went back", version >= self.seen.get(place, 0))
                self.seen[place] = version


def found(state, path, writers, reader):
    """The image is whole and holds what it must; the state is what was found from here on."""
    box = layout.read(path)
    table = model.table_of(box.record)
    hold(f"cluster version {table.cluster}, acknowledged {state.sure}, asked {state.asked}", table.cluster in (state.sure, state.asked))
    same("record", box.record, record(table.cluster))
    state.sure = state.asked = table.cluster
    entries = model.entries_of(box.store)
    for writer in writers:
        mine = [entry for entry in entries if entry.key.startswith(writer.prefix)]
        hold(f"more than its keys are under {writer.prefix}", len(mine) <= KEYS)
        store = model.store_of(mine, (KEYS + 1) * model.BLOCK)
        hold(f"entries under {writer.prefix}, with {len(writer.waiting)} requests on their way: {mine}", store in writer.candidates())
        state.stores[writer.place] = store
        version = int(next((entry.version for entry in mine if entry.key == writer.prefix + b"0"), b"0"))
        hold("a version was read that is not on disk", version >= getattr(reader, "seen", {}).get(writer.place, 0))
    same("entries in all", len(entries), sum(len(model.entries_of(store)) for store in state.stores))
    return box


def left_behind(r, image, older):
    """What may stand as FILE.new: what a server that was killed left, or worse."""
    return {"rubbish": r.randbytes(70000), "nothing": b"", "an older image": older, "an image that is cut": image[:r.randrange(60000)]}


def leave(site, path, older):
    """Leaves something as FILE.new, or what is there."""
    data = site.random.choice([*left_behind(site.random, path.read_bytes(), older).values(), None])
    if data is not None:
        pathlib.Path(f"{path}.new").write_bytes(data)


def leftover(site):
    """FILE.new from before, with whatever in it and readable by all: the server starts from FILE, and its next change makes FILE whole, and its owner's
    alone."""
    path, box = site.format(blocks=4)
    older, new = path.read_bytes(), pathlib.Path(f"{path}.new")
    for what, data in left_behind(site.random, older, older).items():
        new.write_bytes(data)
        new.chmod(0o644)
        server = site.serve(path)
        with Client(server.address, box) as client:
            layout.same_image(f"with {what} as FILE.new", path, box)
            same(f"code of a PUT with {what} as FILE.new", client.put(b"k", what.encode(), force=1), 1)
        layout.same_image(f"after a PUT with {what} as FILE.new", path, box)
        same(f"mode of the image after {what} as FILE.new", path.stat().st_mode & 0o777, 0o600)
        server.end()
    return "4 kinds of FILE.new from before: image and mode after a change"


def killed(site, path, state, changes):
    """Starts the server, puts load on it, and kills it at a random moment, after so many changes at least."""
    server, cut = site.serve(path), threading.Event()
    same("used blocks", server.used, sum(len(model.entries_of(store)) for store in state.stores))
    given = [(state, server, cut, site.random.random()) for _ in range(WRITERS + 2)]
    writers = [Writer(n, *given[n]) for n in range(WRITERS)]
    reader = Reader(*given[-2])
    loads = [*writers, reader, Setter([*writers, reader], *given[-1])]
    for load in loads:
        load.start()
    enough = sum(state.acknowledged) + changes
    soon("changes under load", lambda: sum(state.acknowledged) >= enough or any(load.failure for load in loads))
    time.sleep(site.random.choice((.05, .3, .6)) * site.random.random() + .01)
    cut.set()
    server.end(site.random.choice(SIGNALS))
    for load in loads:
        load.join()
    for load in loads:
        hold(f"{type(load).__name__}: {load.failure}", load.failure is None)
    return writers, reader


def crash(site):
    """The server killed at random moments under load: the image is whole each time, holds all that was acknowledged or read and nothing half-made, and the
    server goes on with it, whatever FILE.new was left."""
    path, _ = site.format()
    state, kills, older = State(), 300 if site.thorough else 15, b""
    for n in range(kills):
        writers, reader = killed(site, path, state, n % 2 * 3)
        box = found(state, path, writers, reader)
        leave(site, path, older)
        older = path.read_bytes()
    with Client(site.serve(path).address, box) as client:
        for entry in model.entries_of(box.store):
            same("code of what was kept", client.ask("GET", pair(entry.key)), 1)
        same("code of a PUT after all", client.put(b"last", b"one more"), 1)
    layout.same_image("after all", path, box)
    changes = sum(state.acknowledged)
    hold("the load changed next to nothing", changes >= kills // 2 * 3)
    return f"{kills} kills: {changes} acknowledged changes and {state.sure} of the cluster version were all there, each image whole"


TESTS = [crash, leftover]
