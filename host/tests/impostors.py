"""The client commands against servers that are none: nobody there, rubbish, replies that are cut, late, or not what a box of that key would send."""
import contextlib
import socket
import subprocess
import threading
import time

import layout
import model
from held import PATIENCE, hold, same
from program import KEY
from wire import NO_READINGS

WAIT = 2 * PATIENCE  # seconds after which an impostor gives up: a client that waits for it comes too late
PAUSE = .1           # seconds before each byte that is sent slowly


class Last(bytes):
    """Bytes that are sent, and then the connection is closed."""


class Slowly(bytes):
    """Bytes that are sent one by one, with a pause before each."""


class Impostor(threading.Thread):
    """Takes one connection. It answers as the model does, but each reply goes through `spoil`, which is given the number of the reply and its bytes, and
    gives what is sent instead; None leaves the connection open and silent. `asked` is set once it has got a request, `left` is whether it saw the client leave
    a connection that was silent or slow."""

    def __init__(self, spoil):
        super().__init__(daemon=True)
        self.spoil, self.listener = spoil, socket.create_server(("127.0.0.1", 0))
        self.listener.settimeout(WAIT)
        self.port, self.over = self.listener.getsockname()[1], threading.Event()
        self.asked, self.left = threading.Event(), False
        self.start()

    def run(self):
        try:
            peer, _ = self.listener.accept()
            with peer:
                peer.settimeout(WAIT)
                self.converse(peer)
        except OSError:
            pass

    def converse(self, peer):
        box, connection, data, count = layout.formatted(KEY, 1), model.Connection(77, False), b"", 0
        while not connection.closed:
            more = peer.recv(4096)
            data += more
            got = model.answer(box, connection, NO_READINGS, data)
            if not more:
                return
            if got.refusal:
                continue
            data, count = data[got.taken:], count + 1
            self.asked.set()
            sent = self.spoil(count, got.reply)
            if sent is None or isinstance(sent, Slowly):
                return self.drip(peer, sent or b"")
            peer.sendall(sent)
            if isinstance(sent, Last):
                return

    def drip(self, peer, data):
        """Sends the bytes slowly, if there are any, and waits for the client to leave."""
        try:
            for n in range(len(data)):
                if self.over.wait(PAUSE):
                    break
                peer.sendall(data[n:n + 1])
            self.left = peer.recv(1) == b""
        except ConnectionError:
            self.left = True

    def end(self):
        self.over.set()
        self.listener.close()
        self.join(WAIT)


def resigned(reply, key, **changes):
    """A reply signed with a key, its command's header with other numbers: f3=.., f6=.."""
    told = model.decode("Message", model.framed(reply)[1])
    command = model.decode("Reply", told[7])
    header = {**command[1], **{int(name[1:]): content for name, content in changes.items()}}
    data = model.message((1, model.message(*sorted(header.items()))), (3, model.message((1, command[3][1]))))
    return model.frame(model.signed(told[5][1], key, data))


def second(spoiled):
    """Spoils the second reply, that to the command itself."""
    return lambda count, reply: spoiled(reply) if count == 2 else reply


def closing(code):
    return model.frame(model.message((4, 3), (7, model.message((1, model.message((3, 77))), (3, model.message((1, code)))))))


# What is done to the reply of a NOOP, and how the command must end.
WAYS = {"another key at once": (65, lambda count, reply: resigned(reply, b"another")), "another key": (65, second(lambda reply: resigned(reply, b"another"))),
        "signed anew with the right key": (0, second(lambda reply: resigned(reply, KEY))),
        "a bit of the digest turned": (65, second(lambda reply: reply[:20] + bytes([reply[20] ^ 1]) + reply[21:])),
        "no digest": (65, second(lambda reply: model.frame(model.message((4, 1), (7, model.decode("Message", reply[9:])[7]))))),
        "success without a signature": (65, second(lambda reply: closing(1))),
        "another ackSequence": (65, second(lambda reply: resigned(reply, KEY, f6=1 << 40))),
        "another connection": (65, second(lambda reply: resigned(reply, KEY, f3=78))),
        "rubbish": (65, lambda count, reply: b"HTTP/1.1 400 Bad Request\r\n\r\n"), "rubbish later": (65, second(lambda reply: bytes(range(200)))),
        "a frame over its limits": (65, second(lambda reply: b"\x46" + b"\xff" * 8)),
        "a message that does not decode": (65, second(lambda reply: model.frame(b"\xff" * 20))),
        "closed": (69, lambda count, reply: Last()), "closed before the reply": (69, second(lambda reply: Last())),
        **{f"cut after {cut} bytes": (69, second(lambda reply, cut=cut: Last(reply[:cut]))) for cut in (1, 8, 9, 30, 50)},
        "silent": (69, lambda count, reply: None), "silent before the reply": (69, second(lambda reply: None)),
        "a byte now and then": (69, second(Slowly)),
        "a closing reply, 20": (20, second(lambda reply: closing(20))), "a closing reply, 2": (2, second(lambda reply: closing(2)))}


# Those for which the client must not wait long.
SLOW = {"silent", "silent before the reply", "a byte now and then"}


def noop(port, seconds):
    return "noop", "--server", f"127.0.0.1:{port}", "--key-file", "key", "--timeout", str(seconds)


@contextlib.contextmanager
def patient(site):
    """A client that waits for a silent server, and has minutes for it."""
    impostor = Impostor(lambda count, reply: None)
    words = [site.program, *noop(impostor.port, PATIENCE)]
    with subprocess.Popen(words, stdin=subprocess.DEVNULL, stdout=subprocess.DEVNULL, stderr=subprocess.DEVNULL, cwd=site.folder) as client:
        try:
            hold("a client with minutes asks", impostor.asked.wait(PATIENCE))
            yield client
        finally:
            client.kill()
            impostor.end()


def in_time(site, way, impostor):
    """A client with --timeout 1 at a server that is silent or slow ends after a second or more, by itself, and before one that has minutes and asked earlier."""
    with patient(site) as other:
        began = time.monotonic()
        done = site.run(*noop(impostor.port, 1))
        hold(f"{way}: the client ended before its second was over", time.monotonic() - began >= 1)
        hold(f"{way}: a client that has minutes ended before one that has a second", other.poll() is None)
    impostor.end()
    hold(f"{way}: the server did not see the client leave", impostor.left)
    return done


def impostors(site):
    """Servers that are no box of that key: the client ends with the code of docs/OPERATING.md, in its time, and prints nothing on standard output."""
    for way, (code, spoil) in WAYS.items():
        impostor = Impostor(spoil)
        done = in_time(site, way, impostor) if way in SLOW else site.run(*noop(impostor.port, PATIENCE))
        impostor.end()
        same(f"{way}: exit code and output, with {done.err!r}", done[:2], (code, b"SUCCESS\n" if code == 0 else b""))
        hold(f"{way}: a message on standard error: {done.err!r}", (code == 0) == (done.err == ""))
    done = site.run(*noop(free_port(), 1))
    same(f"nobody there: exit code and output, with {done.err!r}", done[:2], (69, b""))
    return f"{len(WAYS) + 1} servers that are none: exit codes and output; of {len(SLOW)} that are silent or slow a client with --timeout 1 leaves in time"


def free_port():
    """A port that nobody listens on."""
    with socket.create_server(("127.0.0.1", 0)) as listener:
        return listener.getsockname()[1]


TESTS = [impostors]
