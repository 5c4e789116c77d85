"""Nobody locks others out: who has signed nothing has little time, and makes room."""
import resource
import selectors
import socket
import threading
import time

import layout
import messages
from held import Failed, Lost, hold, same, soon
from peers import made, open_still
from wire import Client, Peer, code_of, pair

SILENT, TIMERS = 1000, 20


class Storm(threading.Thread):
    """So many peers who never say a word, and come again whenever they are closed. `standing` are those that are connected, `came` counts."""

    def __init__(self, addresses):
        super().__init__(daemon=True)
        self.addresses, self.came, self.over, self.standing = addresses, 0, threading.Event(), selectors.DefaultSelector()
        for _ in range(SILENT):
            self.come()

    def come(self):
        self.came += 1
        self.standing.register(socket.create_connection(self.addresses[self.came % len(self.addresses)]), selectors.EVENT_READ)

    def run(self):
        while not self.over.is_set():
            for key, _ in self.standing.select(.1):
                self.standing.unregister(key.fileobj)
                key.fileobj.close()
                self.come()

    def __enter__(self):
        self.start()
        return self

    def __exit__(self, *_):
        self.over.set()
        self.join()
        for key in list(self.standing.get_map().values()):
            key.fileobj.close()
        self.standing.close()


def let_in(address, box, protected):
    """A client that was answered a PUT, and how often it had to try."""
    for tries in range(1, 1000):
        try:
            client = Client(address, box, protected=protected)
            data = client.request("PUT", pair(b"k", force=1), b"%d" % tries).bytes()
            client.peer.send(data)
            reply = client.peer.frame()
            if reply:
                same("reply to the PUT of a timer", reply, client.told(data)[0])
                return client, tries
        except (Lost, OSError):
            pass
    raise Failed("a timer did not get in")


def silent(site):
    """1,000 peers who say nothing and come again at once when they are closed, on both listeners: timers get in meanwhile, and stay."""
    soft, hard = resource.getrlimit(resource.RLIMIT_NOFILE)
    resource.setrlimit(resource.RLIMIT_NOFILE, (min(hard, max(soft, 2 * SILENT)), hard))
    path, box = site.format(blocks=2)
    server = site.serve(path, "--protected-listen", "127.0.0.1:0")
    slowest, tries, clients = 0, 0, []
    with Storm([server.address, server.protected]) as storm:
        for n in range(TIMERS):
            began = time.monotonic()
            client, tried = let_in(server.protected if n % 2 else server.address, box, n % 2 == 1)
            slowest, tries = max(slowest, time.monotonic() - began), tries + tried
            clients.append(client)
            same("silent peers that stand or come", len(storm.standing.get_map()) in range(SILENT - 1, SILENT + 1), True)
        came = storm.came
        for client in clients:
            same("code of a GET of a timer that got in", client.ask("GET", pair(b"k")), 1)
    layout.same_image("after silent peers", path, box)
    return f"{TIMERS} timers got in, the slowest in {slowest * 1000:.0f} ms, with {tries} tries, while {came} silent peers came"


def signed_client(server, box):
    """A client that has sent a rightly signed request; a slow one may need several tries."""
    def tried():
        try:
            client = Client(server.address, box)
            return client.ask("NOOP") == 1 and client
        except (Failed, OSError):
            return None
    return soon("a client signs in time", tried)


def first_request(site):
    """With --first-request 1: who is silent, drips, or sends what was captured elsewhere is closed, no sooner than that; who has signed stays. Without it
    there are five seconds."""
    path, box = site.format(blocks=2)
    default, began = site.serve(site.format("default.image", 2)[0], patient=False), time.monotonic()
    waiting, server = Peer(default.address), site.serve(path, "--first-request", "1", patient=False)
    signed = signed_client(server, box)
    captured, frame = made("PUT", pair(b"k", force=1), b"captured elsewhere"), made("NOOP")
    peers = {what: Peer(server.address) for what in ("silent", "dripping", "replaying")}
    for n in range(len(frame) - 1):
        peers["dripping"].send(frame[n:n + 1])
        peers["replaying"].send(captured)
        time.sleep(.05)
        if not any(map(open_still, (peers["silent"], peers["dripping"]))):
            break
    for what, peer in peers.items():
        codes = {code_of(reply) for reply in iter(peer.frame, b"")}
        hold(f"codes that a {what} peer got before it was closed: {codes}", codes <= ({16} if what == "replaying" else set()))
        hold(f"a {what} peer was closed too soon", time.monotonic() - began >= 1)
    same("code of a NOOP of one that has signed", signed.ask("NOOP"), 1)
    same("what a silent peer got", waiting.rest(), b"")
    hold("a silent peer was closed before five seconds", time.monotonic() - began >= 5)
    for words in ["--first-request", "0"], ["--first-request", "x"]:
        same(f"serve {words}", site.run("serve", "--image", path, *words).code, 64)
    return "a silent peer, one that drips and one that replays what was captured: closed after a second; one that has signed is answered"


def no_farewell(site):
    """Peers that had signed, were then refused by the box and hold on, on every place there is: the next is let in at once, and nobody else makes room."""
    path, box = site.format(blocks=2)
    server = site.serve(path, "--connections", "3")
    waiting = signed_client(server, box)
    for n in range(10):
        refused = [signed_client(server, box) for _ in range(2)]
        for client in refused:
            client.peer.send(messages.request("NOOP", None, b"", key=b"wrong", number=client.number, sequence=99).bytes())
            same("code of a wrong signature", code_of(client.peer.frame()), 2)
        with Client(server.address, box) as client:
            same("code of a PUT of one more", client.put(b"k", b"%d" % n, force=1), 1)
        for client in refused:
            client.peer.close()
    same("code of a NOOP of one that stood all the time", waiting.ask("NOOP"), 1)
    return "10 times 2 refused peers that held on: the next was let in meanwhile"


def longest(site):
    """All places taken by peers who have not signed: each that comes takes the place of the one that has waited longest."""
    path, box = site.format(blocks=2)
    server = site.serve(path, "--connections", "4")
    signed, standing = signed_client(server, box), [Peer(server.address) for _ in range(3)]
    for _ in range(10):
        standing.append(Peer(server.address))
        first = standing.pop(0)
        same("what one that made room got", first.rest(), b"")
        first.close()
        hold("another made room", all(map(open_still, standing)))
    same("code of a NOOP of one that has signed", signed.ask("NOOP"), 1)
    return "10 that came: each time the longest-waiting of 3 made room, and never the one that had signed"


TESTS = [silent, first_request, no_farewell, longest]
