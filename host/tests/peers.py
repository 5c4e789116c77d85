"""Peers that do not behave. The server answers others meanwhile, and keeps nothing of them."""
import itertools
import signal
import socket
import struct
import threading
import time

import layout
import messages
from held import PATIENCE, Failed, Lost, hold, same, soon
from program import KEY
from wire import Client, Peer, code_of, number_of, pair

IDLE = 2         # seconds after which the server closes a peer
GROWTH = 16384   # kB that the server may have grown by
LISTENING = "main", "listener", "log"  # threads of a server that nobody is connected to


class Other(threading.Thread):
    """A connection that behaves, and counts its turns."""

    def __init__(self, server, box):
        super().__init__(daemon=True)
        self.client, self.stop, self.turns, self.failure = Client(server.address, box), threading.Event(), 0, None

    def run(self):
        try:
            while not self.stop.wait(.02):
                same("code of a PUT beside", self.client.put(b"beside", b"%d" % self.client.sequence, force=1), 1)
                same("code of a GET beside", self.client.ask("GET", pair(b"beside")), 1)
                self.turns += 1
        except (Failed, OSError) as why:
            self.failure = why

    def __enter__(self):
        self.start()
        return self

    def __exit__(self, *_):
        self.stop.set()
        self.join()
        self.client.peer.close()

    def answered(self, what):
        """Two more turns begin and end while this lasts."""
        turns = self.turns + 2
        soon(f"replies beside {what}", lambda: self.turns >= turns or self.failure)
        hold(f"beside {what}: {self.failure}", self.failure is None)


def open_still(peer):
    """Whether the server has not closed it yet."""
    peer.socket.setblocking(False)
    try:
        return peer.socket.recv(1, socket.MSG_PEEK) != b""
    except BlockingIOError:
        return True
    except ConnectionResetError:
        return False
    finally:
        peer.socket.settimeout(PATIENCE)


def rubbish(server, r, _):
    """Bytes that are no frame, and frames that decode to nothing: at most a closing reply."""
    for n in range(60):
        with Peer(server.address) as peer:
            data = r.randbytes(r.randrange(1, 3000)) if n % 2 else b"\x46\0\0\0" + bytes([r.randrange(1, 90)]) + bytes(4) + r.randbytes(3000)
            peer.send(data)
            peer.shut()
            reply = peer.rest()
            hold(f"rubbish was answered {reply.hex()}", reply == b"" or code_of(reply) == 20)
    return 60


def made(kind, body=None, value=b"", number=0, sequence=1):
    """The bytes of a request that is signed right."""
    return messages.request(kind, body, value, key=KEY, number=number, sequence=sequence).bytes()


def half_and_gone(server, _, other):
    """Half a frame, and gone: by closing, and by a reset."""
    data = made("PUT", pair(b"half", force=1), b"must not be kept")
    for n in range(60):
        peer = Peer(server.address)
        peer.send(data[:1 + n * (len(data) - 2) // 60])
        if n % 2:
            peer.socket.setsockopt(socket.SOL_SOCKET, socket.SO_LINGER, struct.pack("ii", 1, 0))
        peer.close()
    other.answered("half frames")
    return 60


def drips(server, _, other):
    """Peers that say nothing, that send a byte now and then, and that send whole requests now and then: the last is closed when it has stopped, no sooner."""
    frame = made("NOOP")
    silent, dripping, lively = Peer(server.address), Peer(server.address), Client(server.address, layout.formatted(KEY, 1))
    other.answered("peers that send nothing")
    standing, begun, sent, pause = {"silent": silent, "dripping": dripping}, time.monotonic(), time.monotonic(), 0
    for n in itertools.count():
        dripping.send(frame[n % len(frame):n % len(frame) + 1] if n < len(frame) - 1 else b"")
        if n % 5 == 0:
            pause, sent = max(pause, time.monotonic() - sent), time.monotonic()
            lively.peer.send(lively.request("NOOP").bytes())
            answered = lively.peer.frame()
            hold("a peer that sends a request every quarter of a second was closed", answered or pause > IDLE / 2)
        time.sleep(.05)
        standing = {what: peer for what, peer in standing.items() if open_still(peer)}
        hold(f"still open: {list(standing)}", time.monotonic() - begun < PATIENCE)
        if not standing and time.monotonic() - begun > 2.5 * IDLE:
            break
    lively.peer.rest()
    hold("a peer that has stopped sending was closed too soon", time.monotonic() - sent >= IDLE or pause > IDLE / 2)
    for peer in silent, dripping, lively.peer:
        peer.close()
    return 3


def deaf(server, _, other):
    """A peer that sends and sends, and never reads."""
    peer = Peer(server.address)
    peer.send(made("NOOP"))
    number = number_of(peer.frame())
    requests = b"".join(made("GET", pair(b"long"), number=number, sequence=n) for n in range(1, 4000))
    peer.socket.settimeout(.2)
    stuck = 0
    while stuck * .2 < PATIENCE:
        try:
            if not peer.send(requests):
                break
        except socket.timeout:
            stuck += 1
            if stuck == 1:
                other.answered("a peer that never reads")
    else:
        raise Failed("a peer that never reads was not closed")
    peer.close()
    return 1


def peers(site):
    """Rubbish, half frames, silence, drips, and a peer that never reads, with --idle 2: closed and not too soon, others are answered meanwhile, and no thread
    or memory is left of them."""
    path, box = site.format(blocks=4)
    server = site.serve(path, "--idle", str(IDLE))
    with Client(server.address, box) as client:
        same("code of a PUT", client.put(b"long", b"w" * 384), 1)
    threads = len(LISTENING)
    soon(f"{threads} threads", lambda: server.status("Threads") == threads)
    memory, count = server.status("VmRSS"), 0
    with Other(server, box) as other:
        for kind in rubbish, half_and_gone, drips, deaf:
            count += kind(server, site.random, other)
            other.answered(f"{count} such peers")
    soon(f"{threads} threads again", lambda: server.status("Threads") == threads)
    grown = server.status("VmRSS") - memory
    hold(f"the server grew by {grown} kB", grown < GROWTH)
    with Client(server.address, box) as client:
        same("code of a GET afterwards", client.ask("GET", pair(b"long")), 1)
    layout.same_image("after such peers", path, box)
    return f"{count} such peers; beside them {other.client.replies} replies; {threads} threads after as before"


def crowd(site):
    """More connections than --connections, or than 64, all of whom have signed: the next is closed, those that stand are answered, and one that leaves makes
    room."""
    turned_away = sum(crowded(site, most, words) for most, words in ((4, ["--connections", "4"]), (64, [])))
    return f"{turned_away} connections too many closed at once, 4 and 64 that stood answered, 10 each let in when others left"


def crowded(site, most, words):
    path, box = site.format(f"{most}.image", blocks=2)
    server = site.serve(path, "--protected-listen", "127.0.0.1:0", *words)
    clients = [Client(server.protected if n % 2 else server.address, box, protected=n % 2 == 1) for n in range(most)]
    same("codes of first requests", [client.ask("NOOP") for client in clients], [1] * most)
    for address in [server.address, server.protected] * 10:
        with Peer(address) as peer:
            same("what one too many got", peer.rest(), b"")
    for n, client in enumerate(clients):
        same("code of a PUT of one that stands", client.put(b"k", b"%d" % n, force=1), 1)
    for _ in range(10):
        clients.pop(0).peer.close()
        clients.append(soon("room for one more", lambda: admitted(server, box)))
    for client in clients:
        client.finished("its requests")
    layout.same_image("after a crowd", path, box)
    return 20


def admitted(server, box):
    """A client that was answered a GET, or None where it was turned away."""
    try:
        client = Client(server.address, box)
    except (Lost, OSError):
        return None
    same("code of a GET of one that was let in", client.ask("GET", pair(b"k")), 1)
    return client


def paused(site):
    """A server that is stopped and goes on (SIGSTOP, SIGCONT) keeps its connections, those that wait for a request and one amid a frame."""
    path, box = site.format(blocks=4)
    server = site.serve(path)
    clients = [Client(server.address, box) for _ in range(3)]
    half = clients[0].request("NOOP").bytes()
    clients[0].peer.send(half[:20])
    for _ in range(5):
        server.process.send_signal(signal.SIGSTOP)
        time.sleep(.05)
        server.process.send_signal(signal.SIGCONT)
        time.sleep(.05)
    clients[0].peer.send(half[20:])
    clients[0].hear("a frame that was halved", clients[0].told(half))
    for client in clients:
        same("code of a NOOP after the stops", client.ask("NOOP"), 1)
    return f"{len(clients)} connections of a server that was stopped 5 times are answered"


TESTS = [peers, crowd, paused]
