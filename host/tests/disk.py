"""A disk that refuses: what it refused was never so, and the server goes on with what is on disk."""
import os
import signal
import threading

import layout
import model
from held import PATIENCE, Failed, Lost, hold, same
from messages import table_tree
from program import within
from wire import Client, all_scope, code_of, pair, setup, value_of

OTHER = model.Table(0, (model.Acl(1, b"another key", (all_scope(),)),))
CHANGES = {"PUT": (pair(b"k", b"2", b"1"), b"new"), "PUT of a new key": (pair(b"new"), b"new"), "DELETE": (pair(b"k", old=b"1"), b""),
           "SETUP": (setup(5), b""), "SECURITY": (table_tree(OTHER), b"")}


class Moved:
    """The image's folder is moved away, so that no file can be made where it stood."""

    def __init__(self, site):
        self.folder, self.away = site.path("disk"), site.path("disk away")

    def path(self):
        return self.away / "box.image"

    def __enter__(self):
        os.rename(self.folder, self.away)
        return self

    def __exit__(self, *_):
        os.rename(self.away, self.folder)


class Blocked:
    """A folder stands where FILE.new should be written."""

    def __init__(self, site):
        self.folder, self.way = site.path("disk"), site.path("disk") / "box.image.new"

    def path(self):
        return self.folder / "box.image"

    def __enter__(self):
        self.way.mkdir()
        return self

    def __exit__(self, *_):
        self.way.rmdir()


def unanswered(server, box, kind, body, value):
    """A change that the disk refuses: the connection is closed without a reply, also to what was sent behind it."""
    with Client(server.address, box) as client:
        data = client.request(kind, body, value).bytes() + client.request("GET", pair(b"k")).bytes()
        client.peer.send(data)
        same(f"reply to {kind} that the disk refuses", client.peer.rest(), b"")


def as_before(server, box, what):
    """A new connection sees what the model's box holds."""
    with Client(server.address, box) as client:
        for key, code in (b"k", 1), (b"new", 7):
            same(f"code of GET {key} after {what}", client.ask("GET", pair(key)), code)


def disk(site):
    """Changes that the disk refuses get no reply and are taken back, table and cluster version too; once it works again, so do they."""
    site.path("disk").mkdir()
    path, box = site.format("disk/box.image", 4)
    server = site.serve(path)
    with Client(server.address, box) as client:
        same("code of the first PUT", client.put(b"k", b"old", b"1"), 1)
    count = 0
    for way in Moved, Blocked:
        for kind, (body, value) in CHANGES.items():
            with way(site) as how:
                unanswered(server, box, kind.split()[0], body, value)
                as_before(server, box, f"{kind} that was refused")
                layout.same_image(f"after {kind} that was refused", how.path(), box)
                count += 1
            as_before(server, box, "the disk was back")
        with Client(server.address, box) as client:
            same("code of a PUT when the disk is back", client.put(b"k", b"newer", b"1", b"1"), 1)
        layout.same_image("after a PUT when the disk is back", path, box)
    hold("the server says nothing of its disk", server.errors().strip())
    server.end()
    with Client(site.serve(path).address, box) as client:
        same("code of a GET of the next server", client.ask("GET", pair(b"k")), 1)
    return f"{count} changes refused by the disk in two ways: no reply, nothing changed; afterwards they are done and on disk"


class Watcher(threading.Thread):
    """Reads a key over and over; whatever it sees but the old value is wrong."""

    def __init__(self, server, box, until):
        super().__init__(daemon=True)
        self.server, self.box, self.until, self.count, self.failure = server, model.Box(box.store, box.record), until, 0, None

    def run(self):
        try:
            while not self.until.is_set():
                self.look()
        except (Failed, OSError) as why:
            self.failure = why

    def look(self):
        """On one connection until it is closed, which a refusal of the disk may do, at its first NOOP too."""
        try:
            client = Client(self.server.address, self.box)
        except Lost:
            return
        with client:
            while not self.until.is_set():
                client.peer.send(client.request("GET", pair(b"k")).bytes())
                reply = client.peer.frame()
                if not reply:
                    return
                same("value that was read while the disk refused", (code_of(reply), value_of(reply)), (1, b"old"))
                self.count += 1


def disk_unread(site):
    """While the disk refuses, nobody ever reads a value that is not on it, though many try to put one."""
    site.path("disk").mkdir()
    path, box = site.format("disk/box.image", 4)
    server, until = site.serve(path), threading.Event()
    with Client(server.address, box) as client:
        same("code of the first PUT", client.put(b"k", b"old", b"1"), 1)
    watchers = [Watcher(server, box, until) for _ in range(4)]
    tries = 0
    with Blocked(site):
        for watcher in watchers:
            watcher.start()
        go_on, in_time = within(10 if site.thorough else 1.5), within(PATIENCE)
        while go_on() or in_time() and sum(watcher.count for watcher in watchers) <= tries and not any(watcher.failure for watcher in watchers):
            unanswered(server, box, "PUT", pair(b"k", b"2", force=1), b"not on disk")
            tries += 1
        until.set()
        for watcher in watchers:
            watcher.join()
    for watcher in watchers:
        hold(f"a reader: {watcher.failure}", watcher.failure is None)
    reads = sum(watcher.count for watcher in watchers)
    hold(f"{reads} reads beside {tries} refused changes", reads > tries)
    as_before(server, box, "all was refused")
    return f"{tries} changes refused while four connections read {reads} times: all saw the old value"


def disk_limit(site):
    """A limit on the size of files, below the image's: changes are refused like any that the disk refuses, and the server goes on."""
    path, box = site.format()
    server = site.serve(path)
    with Client(server.address, box) as client:
        same("code of the first PUT", client.put(b"k", b"old", b"1"), 1)
    server.end(signal.SIGTERM)
    server = site.serve(path, under=["sh", "-c", 'ulimit -f 20; exec "$@"', "sh"])
    for kind, (body, value) in CHANGES.items():
        unanswered(server, box, kind.split()[0], body, value)
        hold("the server ended", server.running())
        hold("half an image was left", not os.path.exists(f"{path}.new"))
    as_before(server, box, "changes over the limit")
    server.end(signal.SIGTERM)
    layout.same_image("after changes over the limit", path, box)
    return f"{len(CHANGES)} changes over a limit on files: refused, and the server goes on"


TESTS = [disk, disk_unread, disk_limit]
