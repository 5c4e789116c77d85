"""The program as processes: commands that are run to their end, and servers. Every test has a folder of its own, a Site, which ends what was started in it."""
import collections
import contextlib
import os
import pathlib
import random
import re
import shutil
import signal
import subprocess
import tempfile
import threading
import time

import layout
from held import PATIENCE, Failed, hold, same

TOP = pathlib.Path(__file__).resolve().parent.parent.parent
PROGRAM = TOP / "target" / "host" / "release" / "ridgeladle"
KEY = b"the office's key"
LOOPBACK = "127.0.0.1"

Done = collections.namedtuple("Done", "code out err")


class Server:
    """A server process, started by the words `under` where there are any. `address` is the plain listener's, `protected` the other's where there is one. If not
    said otherwise, clients have long for their first requests."""

    def __init__(self, site, image, words, under=(), patient=True):
        self.image = pathlib.Path(image)
        words = [*words, *(["--first-request", str(PATIENCE)] if patient else [])]
        self.log = site.folder / f"server{len(site.servers)}.err"
        with open(self.log, "wb") as errors:
            self.process = subprocess.Popen([*under, site.program, "serve", "--image", image, "--listen", LOOPBACK + ":0", *words], stdin=subprocess.DEVNULL,
                                            stdout=subprocess.PIPE, stderr=errors, cwd=site.folder)
        site.servers.append(self)
        lines = self.first_lines(2 if "--protected-listen" in words else 1)
        ready = re.fullmatch(r"serving (.*) on 127\.0\.0\.1:(\d+), (\d+) of (\d+) blocks used", lines[0])
        hold(f"the server said {lines[0]!r}", ready)
        same("the file that the server names", ready[1], str(image))
        self.used, self.blocks, self.address, self.protected = int(ready[3]), int(ready[4]), (LOOPBACK, int(ready[2])), None
        if len(lines) > 1:
            ready = re.fullmatch(r"serving protected on 127\.0\.0\.1:(\d+)", lines[1])
            hold(f"the server said {lines[1]!r}", ready)
            self.protected = LOOPBACK, int(ready[1])

    def first_lines(self, count):
        """The lines that say that it is ready; a server that says nothing in time is ended."""
        watch = threading.Timer(PATIENCE, self.process.kill)
        watch.start()
        lines = [self.process.stdout.readline().decode() for _ in range(count)]
        watch.cancel()
        if not all(line.endswith("\n") for line in lines):
            self.close()
            raise Failed(f"the server did not start: {lines}, exit {self.process.returncode}, {self.errors()!r}")
        return [line[:-1] for line in lines]

    @property
    def pid(self):
        return self.process.pid

    def errors(self):
        """What it said on standard error."""
        return self.log.read_text(errors="replace")

    def status(self, name):
        """A number of /proc/PID/status: Threads, or VmRSS in kB."""
        return int(re.search(rf"^{name}:\s+(\d+)", pathlib.Path(f"/proc/{self.pid}/status").read_text(), re.M)[1])

    def nameless(self):
        """How many files it has open that have no name any more."""
        links = []
        for entry in os.scandir(f"/proc/{self.pid}/fd"):
            with contextlib.suppress(FileNotFoundError):
                links.append(os.readlink(entry.path))
        return sum(link.endswith(" (deleted)") for link in links)

    def running(self):
        return self.process.poll() is None

    def end(self, how=signal.SIGKILL):
        """Ends it by a signal; it must have run until then, and have said nothing more on standard output. SIGINT and SIGTERM it handles itself."""
        hold(f"the server had ended with {self.process.poll()}", self.running())
        self.process.send_signal(how)
        self.ended(-how if how == signal.SIGKILL else 0)

    def ended(self, code):
        """Waits for its end."""
        same("exit code of the server", self.process.wait(PATIENCE), code)
        same("what the server said on standard output when it was ready", self.process.stdout.read(), b"")

    def close(self):
        """Ends it if it runs."""
        self.process.kill()
        self.process.wait(PATIENCE)
        self.process.stdout.close()


class Site:
    """A fresh folder, a generator of random numbers, and the servers and commands of one test."""

    def __init__(self, program, thorough, seed):
        self.program, self.thorough, self.random = program, thorough, random.Random(seed)
        self.folder = pathlib.Path(tempfile.mkdtemp(prefix="ridgeladle-"))
        self.servers = []
        self.write("key", KEY)

    def __enter__(self):
        return self

    def __exit__(self, *_):
        for server in self.servers:
            server.close()
        shutil.rmtree(self.folder, ignore_errors=True)

    def path(self, name):
        return self.folder / name

    def write(self, name, data):
        self.path(name).write_bytes(data)
        return self.path(name)

    def image(self, box, name="box.image"):
        """An image of a model's box."""
        layout.write(self.path(name), box)
        return self.path(name)

    def serve(self, image, *words, **given):
        return Server(self, image, words, **given)

    def run(self, *words, stdin=b"", environment=None, seconds=PATIENCE):
        """Runs a command of the program to its end."""
        given = {**{name: value for name, value in os.environ.items() if name != "RIDGELADLE_KEY"}, **(environment or {})}
        try:
            done = subprocess.run([self.program, *words], input=stdin, capture_output=True, timeout=seconds, cwd=self.folder, env=given, check=False)
        except subprocess.TimeoutExpired:
            raise Failed(f"not ended within {seconds} seconds: {' '.join(map(str, words))}") from None
        return Done(done.returncode, done.stdout, done.stderr.decode(errors="replace"))

    def format(self, name="box.image", blocks=128):
        """An image that the program made; the model's box of it is given too."""
        done = self.run("format", "--image", self.path(name), "--key-file", "key", "--blocks", str(blocks))
        same("format: exit code and error", (done.code, done.err), (0, ""))
        return self.path(name), layout.formatted(KEY, blocks)

    def account(self):
        """What the servers said, for a test that failed."""
        said = [(server.pid, server.errors().strip()) for server in self.servers]
        return "".join(f"\n  server {pid} said: {words[-2000:]}" for pid, words in said if words)


def within(seconds):
    """A function that says whether some seconds have not passed yet."""
    end = time.monotonic() + seconds
    return lambda: time.monotonic() < end
