"""That a change is on disk before its reply is sent, and that the file it replaced is closed after it, by the system calls that the server makes: a kill alone
would not show it, since what was written outlives a process."""
import re
import subprocess

import layout
from held import PATIENCE, hold, same, soon
from program import TOP
from wire import Client, pair, setup

CLOSED = "close the FILE of before"
WRITTEN = ["fsync FILE.new", "rename FILE.new FILE", "fsync folder", "reply", CLOSED]


class Traced:
    """The server's calls while this lasts, in their order, by strace."""

    def __init__(self, server):
        self.log = server.log.with_suffix(".calls")
        calls = "fsync,fdatasync,rename,renameat,renameat2,sendto,sendmsg,write,close"
        self.process = subprocess.Popen(["strace", "-f", "-y", "-s", "0", "-e", f"trace={calls}", "-o", self.log, "-p", str(server.pid)],
                                        stderr=subprocess.PIPE, stdin=subprocess.DEVNULL)

    def __enter__(self):
        hold("strace looks at the server", b"attached" in self.process.stderr.readline())
        return self

    def __exit__(self, *_):
        self.process.terminate()
        self.process.wait(PATIENCE)
        self.process.stderr.close()

    def named(self, path):
        """The calls in the words of WRITTEN."""
        return [call for call in (named(line, path) for line in self.log.read_text().splitlines()) if call]


def named(line, path):
    """What a call did, in the words of WRITTEN; none for others, and for the bytes of FILE.new, which are written before it is synced."""
    call = re.match(r"\d+ +(\w+)\((.*)", line)
    if not call:
        return None
    name, given = call.groups()
    if name in ("fsync", "fdatasync"):
        return f"fsync {'FILE.new' if f'<{path}.new>' in given else 'folder' if f'<{path.parent}>' in given else given}"
    if name == "close":
        return CLOSED if re.match(rf"\d+<{re.escape(str(path))}\b.*deleted", given) else None
    if name.startswith("rename"):
        return "rename FILE.new FILE" if f'"{path}.new"' in given and f'"{path}"' in given else f"rename {given}"
    return "reply" if name in ("sendto", "sendmsg") or "<TCP" in given or "<socket" in given else None


def synced(site):
    """Each change is written, synced, renamed and its folder synced before its reply is sent, and the file of before is closed then; what changes nothing is
    answered at once."""
    subprocess.run([TOP / "tests" / "need", "strace", "strace"], check=True)
    path, box = site.format(blocks=4)
    path = path.resolve()
    server = site.serve(path)
    asked = [("PUT", pair(b"k", b"1"), b"v", True), ("GET", pair(b"k"), b"", False), ("NOOP", None, b"", False), ("PUT", pair(b"k", b"2"), b"w", False),
             ("DELETE", pair(b"k", old=b"1"), b"", True), ("DELETE", pair(b"k", force=1), b"", False), ("SETUP", setup(0), b"", False)]
    with Traced(server) as traced, Client(server.address, box) as client:
        for kind, body, value, _ in asked:
            client.ask(kind, body, value)
        layout.same_image("after all", path, box)
        wanted = ["reply"] + [call for *_, changes in asked for call in (WRITTEN if changes else ["reply"])]
        soon("the trace has all calls", lambda: len(traced.named(path)) >= len(wanted))
    same("calls, in their order", traced.named(path), wanted)
    changes = sum(changes for *_, changes in asked)
    return f"{len(asked)} requests: each of {changes} changes synced, renamed and its folder synced before its reply, and the file of before closed after it"


TESTS = [synced]
