"""The session that README.md shows, played again in what `make run` leaves: each command must print what stands under it."""
import os
import re
import signal
import stat
import subprocess
import time

from held import hold, same
from program import TOP, within

MINUTES = 180  # seconds for a command, or for the server to be ready or ended


def session(text):
    """The commands of the session, each with the lines under it."""
    block = re.search(r"```\n(\$ .*?)```", text, re.S)[1]
    return [(words, said) for words, said in re.findall(r"^(?:\$ |(?=#))(.*)\n((?:(?!\$ |#).*\n)*)", block, re.M)]


class Run:
    """host/run over a program that is built, in a folder of its own."""

    def __init__(self, site, folder):
        given = {**os.environ, "PROGRAM": str(site.program), "ROOM": str(folder), "LISTEN": "127.0.0.1:0"}
        with open(site.path("run.out"), "wb") as out:
            self.process = subprocess.Popen([TOP / "host" / "run"], stdin=subprocess.DEVNULL, stdout=out, stderr=out, env=given)
        self.said = site.path("run.out")

    def __enter__(self):
        waiting = within(MINUTES)
        while waiting() and "Ctrl-C" not in self.said.read_text() and self.process.poll() is None:
            time.sleep(.02)
        self.address = re.search(r" on (127\.0\.0\.1:\d+),", self.said.read_text())
        hold(f"make run says where it serves: {self.said.read_text()!r}", self.address)
        return self

    def __exit__(self, *_):
        self.end()

    def end(self):
        """As Ctrl-C does; the signal is the other one, since SIGINT may be ignored from outside."""
        self.process.send_signal(signal.SIGTERM)
        self.process.wait(MINUTES)

    def commands(self):
        """The commands that it says to try."""
        return re.findall(r"^  (\S.*)$", self.said.read_text(), re.M)


def readme(site):
    """README's session as it stands, in the folder that host/run makes: the same lines; files with keys are for their owner alone."""
    steps = session((TOP / "README.md").read_text())
    folder, before = site.path("demonstration"), ""
    with Run(site, folder) as run:
        given = {**os.environ, "RIDGELADLE_SERVER": run.address[1], "PATH": f"{site.program.parent}:{os.environ['PATH']}"}
        for words, said in steps:
            if words.startswith("#"):
                run.end()
                continue
            done = subprocess.run(["bash", "-c", before + words], capture_output=True, text=True, timeout=MINUTES, cwd=folder, env=given, check=False)
            same(f"what is printed by {words}", done.stdout + done.stderr, said)
            if words.startswith(("export ", "umask ")):
                before += words + "; "
    hold("the session has the commands that are looked for", len(steps) > 10)
    for name in "office.key", "timer7.key", "tablet.key", "box.img":
        same(f"mode of {name}", oct(stat.S_IMODE((folder / name).stat().st_mode)), oct(0o600))
    return f"{len(steps)} steps of the session print what README.md says"


def readme_tries(site):
    """The commands that `make run` says to try, run as they are printed."""
    with Run(site, site.path("demonstration")) as run:
        commands = run.commands()
        same("number of commands to try", len(commands), 3)
        for words in commands:
            done = subprocess.run(["bash", "-c", words], capture_output=True, text=True, timeout=MINUTES, cwd=TOP, check=False)
            same(f"exit code and error of {words}", (done.returncode, done.stderr), (0, ""))
    same("exit code of make run", run.process.returncode, 0)
    return f"{len(commands)} commands of make run"


TESTS = [readme, readme_tries]
