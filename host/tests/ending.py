"""SIGINT and SIGTERM: the server accepts nothing more, finishes what it writes, and ends with 0, however it was started and whoever is connected."""
import os
import pathlib
import re
import signal
import subprocess

import layout
from held import Failed, hold, same, soon
from peers import made
from program import TOP
from wire import Client, Peer, pair

DELAY = 1  # seconds that a sync takes
IGNORED = ["sh", "-c", 'trap "" INT TERM HUP; exec "$@"', "sh"]
FIRST_PROCESS = ["unshare", "--pid", "--fork", "--mount-proc"]


def first_process_allowed():
    return subprocess.run([*FIRST_PROCESS, "true"], capture_output=True, check=False).returncode == 0


def child_of(pid):
    """The process that this one started."""
    path = pathlib.Path(f"/proc/{pid}/task/{pid}/children")
    return int(soon("the server is started", path.read_text).split()[0])


def holders(server, box):
    """Connections that nobody closes: one that says nothing, one amid a frame, one that has been answered."""
    silent, half, answered = Peer(server.address), Peer(server.address), Client(server.address, box)
    half.send(made("NOOP")[:20])
    same("code of a PUT", answered.put(b"k", b"%d" % server.pid, force=1), 1)
    return silent, half, answered


def deaf(server):
    """A connection that takes no reply, and sends until nobody reads it any more."""
    peer = Peer(server.address)
    peer.socket.settimeout(.2)
    try:
        while peer.send(made("NOOP") * 5000):
            pass
    except TimeoutError:
        return peer
    raise Failed("a peer that takes no reply was closed")


def ends(site, path, box, how, under=()):
    server = site.serve(path, under=under)
    held = [*holders(server, box), *([] if under else [deaf(server)])]
    if under == FIRST_PROCESS:
        inside = pathlib.Path(f"/proc/{child_of(server.pid)}/status").read_text()
        hold("the server is process 1 of its namespace", re.search(r"^NSpid:.*\s1$", inside, re.M))
    os.kill(child_of(server.pid) if under == FIRST_PROCESS else server.pid, how)
    server.ended(0)
    layout.same_image(f"after {how.name}", path, box)
    return held


def ending(site):
    """SIGINT and SIGTERM end the server with 0 though peers hold on, one of whom takes no reply; also where these signals are ignored from outside, and as process 1."""
    path, box = site.format(blocks=4)
    ways = {"plainly": (), "with its signals ignored": IGNORED, **({"as process 1": FIRST_PROCESS} if first_process_allowed() else {})}
    for under in ways.values():
        for how in signal.SIGINT, signal.SIGTERM:
            ends(site, path, box, how, under)
    words = "" if "as process 1" in ways else handled(site, path)
    return f"{len(ways)} ways to be started ({', '.join(ways)}), two signals each: ends with 0, and the image is the model's{words}"


def handled(site, path):
    """Where no namespace may be made: process 1 gets the signals that it has a handler for, so it must have these."""
    status = pathlib.Path(f"/proc/{site.serve(path).pid}/status").read_text()
    caught = int(next(line.split()[1] for line in status.splitlines() if line.startswith("SigCgt:")), 16)
    hold("handlers of SIGINT and SIGTERM", all(caught >> number - 1 & 1 for number in (signal.SIGINT, signal.SIGTERM)))
    return "; as process 1 held by its handlers alone, since no namespace may be made here"


def ending_writing(site):
    """A signal amid a write, on a disk that takes a second to sync: a newcomer is not answered, the write is finished and its reply sent, and it ends with 0."""
    subprocess.run([TOP / "tests" / "need", "strace", "strace"], check=True)
    path, box = site.format(blocks=4)
    for how in signal.SIGINT, signal.SIGTERM:
        server = site.serve(path)
        client = Client(server.address, box)
        slowed = subprocess.Popen(["strace", "-f", "-e", "trace=fsync", "-e", f"inject=fsync:delay_enter={DELAY * 1000000}", "-o", "/dev/null", "-p",
                                   str(server.pid)], stderr=subprocess.PIPE, stdin=subprocess.DEVNULL)
        hold("strace looks at the server", b"attached" in slowed.stderr.readline())
        data = client.request("PUT", pair(b"k", force=1), how.name.encode()).bytes()
        client.peer.send(data)
        soon("the write has begun", pathlib.Path(f"{path}.new").exists)
        server.process.send_signal(how)
        soon("the server says that it ends", lambda: how.name in server.errors())
        late = newcomer(server)
        client.hear("a PUT that was being written", client.told(data))
        same("what a newcomer is told", late, b"")
        server.ended(0)
        slowed.stderr.close()
        slowed.wait()
        layout.same_image(f"after {how.name} amid a write", path, box)
    return f"2 signals while a sync took {DELAY} s: no newcomer answered, the change on disk and answered, exit code 0"


def newcomer(server):
    """What one who connects now is told."""
    try:
        with Peer(server.address) as peer:
            peer.send(made("NOOP"))
            return peer.rest()
    except ConnectionRefusedError:
        return b""


TESTS = [ending, ending_writing]
