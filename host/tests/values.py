"""Values beyond doubt: one that is changed on its way is refused by who reads it."""
import hashlib
import socket
import threading

import layout
import model
from client import TABLE, Commands
from held import hold, same

WAIT = 180  # seconds after which a proxy gives up
READING = b"WBGT 31.4 C, work 30 min, rest 30 min"
TURNED = READING.replace(b"31.4", b"21.4")


class Proxy(threading.Thread):
    """Takes one connection and carries it to a box, frame by frame. Value parts of requests go through `there`, those of replies through `back`."""

    def __init__(self, address, there=bytes, back=bytes):
        super().__init__(daemon=True)
        self.address, self.there, self.back = address, there, back
        self.listener = socket.create_server(("127.0.0.1", 0))
        self.listener.settimeout(WAIT)
        self.port = self.listener.getsockname()[1]
        self.start()

    def run(self):
        peer, _ = self.listener.accept()
        with self.listener, peer, socket.create_connection(self.address, WAIT) as box:
            peer.settimeout(WAIT)
            other = threading.Thread(target=carry, args=(box, peer, self.back), daemon=True)
            other.start()
            carry(peer, box, self.there)
            other.join(WAIT)


def carry(source, target, changed):
    """Frames, one after the other, until the source sends no more."""
    with source.makefile("rb") as stream:
        while len(head := stream.read(9)) == 9:
            message, value = stream.read(int.from_bytes(head[1:5], "big")), stream.read(int.from_bytes(head[5:9], "big"))
            target.sendall(model.frame(message, changed(value)))
    target.shutdown(socket.SHUT_WR)


def through(run, command, *words, **ways):
    """A command to the box through a proxy."""
    proxy = Proxy(run.server.address, **ways)
    run.count += 1
    done = run.site.run(command, "--server", f"127.0.0.1:{proxy.port}", "--key-file", "key", *words)
    proxy.join(WAIT)
    return done


def turned(value):
    """31.4 as 21.4."""
    return value.replace(b"31.4", b"21.4")


def refused(what, done):
    same(f"{what}: exit code and output, with {done.err!r}", done[:2], (65, b""))
    hold(f"{what}: the tag is not named in {done.err!r}", "SHA-1 is not the tag" in done.err)


LOOKS = ["get", "t"], ["next", "a"], ["previous", "z"], ["get", "t", "--raw"]


def values(site):
    """A value that is changed on its way to the box or back, cut or added: `get`, `next` and `previous` refuse it, since its SHA-1 is not the tag."""
    run = Commands(site, model.Box(bytes(2 * model.BLOCK), model.record_of(TABLE)))
    tag = hashlib.sha1(READING).digest()
    good = b"key t\ntag right\nalgorithm SHA1\nvalue " + READING + b"\n"
    run.holds(model.Entry(b"t", b"", tag, 1, READING))
    run.good(b"SUCCESS\n", "put", "t", READING.decode())
    same("through a proxy that changes nothing", through(run, "get", "t"), (0, good, ""))
    for words in LOOKS:
        for what, back in ("changed", turned), ("cut", lambda value: value[:-1]), ("gone", lambda value: b""), ("longer", lambda value: value + b"0"):
            refused(f"{words} of a value that is {what} on its way back", through(run, *words, back=back))
    refused("a value beside metadata", through(run, "get", "t", "--metadata-only", back=lambda value: TURNED))
    run.holds(model.Entry(b"t", b"", tag, 1, TURNED))
    same("a PUT that is changed on its way", through(run, "put", "t", READING.decode(), "--force", there=turned), (0, b"SUCCESS\n", ""))
    layout.same_image("after it", run.path, run.box)
    for words in LOOKS:
        refused(f"{words} of a value that was changed on its way to the box", run.run(*words))
    same("get --unchecked", run.run("get", "t", "--unchecked").out, good.replace(b"right", b"wrong").replace(b"31.4", b"21.4"))
    same("get --metadata-only", run.run("get", "t", "--metadata-only").out, b"key t\ntag " + layout.text(tag).encode() + b"\nalgorithm SHA1\n")
    hold("show does not name the tag wrong", " wrong " in site.run("show", "--image", run.path).out.decode())
    same("a value without a tag that is changed", through(run, "put", "u", READING.decode(), "--no-tag", there=turned).code, 0)
    same("get of it", run.run("get", "u"), (0, b"key u\nvalue " + TURNED + b"\n", ""))
    return f"{run.count} commands: changed values are refused, each way"


TESTS = [values]
