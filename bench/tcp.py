#!/usr/bin/env python3
"""tcp.py [--seconds N] [--rounds N]

Measures the box over TCP, with one connection and with sixteen that each wait for a reply before they send the next request; the peer is Redis, in the same
run. The sides take turns, and the median of the rounds counts. bench/tcp.sh builds what this runs.

  --seconds N    for each measurement of a round     (1.2)
  --rounds N     how often each is measured          (3)
"""
import argparse
import contextlib
import csv
import itertools
import pathlib
import socket
import statistics
import subprocess
import sys
import tempfile
import typing

TOP = pathlib.Path(__file__).resolve().parent.parent
sys.path[:0] = [str(TOP / "host" / "tests"), str(TOP / "conformance")]

import program
from held import Failed, hold, soon

LOAD = TOP / "target" / "host" / "release" / "examples" / "load"
MEMORY = pathlib.Path("/dev/shm")
PATIENCE = 30     # seconds for a measurement beyond its own
CONNECTIONS = 1, 16
VALUE, ENTRIES = 32, 64


class Measured(typing.NamedTuple):
    """Requests a second; times in microseconds. `call` is that of the library's call alone, none for Redis."""
    rate: float
    median: float
    p99: float
    call: float = 0

    def time(self):
        """Microseconds for each request."""
        return 1e6 / self.rate


def middle(rounds):
    return Measured(*map(statistics.median, zip(*rounds)))


def output(words, seconds):
    """What a command prints; it fails where the command does."""
    try:
        done = subprocess.run([str(word) for word in words], capture_output=True, text=True, timeout=seconds + PATIENCE, check=False)
    except subprocess.TimeoutExpired:
        raise Failed(f"not ended in time: {words[0]}") from None
    hold(f"{words[0]}: {done.stderr.strip()}", done.returncode == 0)
    return done.stdout


class Box:
    """A box that serves from an image in a folder."""

    def __init__(self, site, folder):
        self.key_file, image = site.path("key"), folder / "box.image"
        output([site.program, "format", "--image", image, "--key-file", self.key_file], 0)
        self.address = ":".join(map(str, site.serve(image).address))

    def measured(self, operation, connections, seconds):
        words = [LOAD, "--operation", operation, "--server", self.address, "--key-file", self.key_file, "--connections", connections,
                 "--milliseconds", round(1000 * seconds)]
        return Measured(*map(float, output(words, seconds).split()))


class Redis:
    """Redis, which syncs its log before it answers a SET. `rates` has how many requests a second it did, to know how many take a time."""

    def __init__(self, folder):
        with socket.socket() as free:
            free.bind((program.LOOPBACK, 0))
            self.port = free.getsockname()[1]
        self.rates = {}
        words = ["redis-server", "--bind", program.LOOPBACK, "--port", str(self.port), "--dir", str(folder), "--save", "", "--daemonize", "no",
                 "--appendonly", "yes", "--appendfsync", "always"]
        self.process = subprocess.Popen(words, stdin=subprocess.DEVNULL, stdout=subprocess.DEVNULL)

    def ready(self):
        with socket.socket() as one:
            return one.connect_ex((program.LOOPBACK, self.port)) == 0

    def benchmark(self, operation, connections, requests, seconds):
        words = ["redis-benchmark", "-h", program.LOOPBACK, "-p", self.port, "-t", operation, "-d", VALUE, "-r", ENTRIES, "-c", connections,
                 "-n", requests, "--csv"]
        row = list(csv.DictReader(output(words, seconds).splitlines()))[-1]
        return Measured(float(row["rps"]), 1000 * float(row["p50_latency_ms"]), 1000 * float(row["p99_latency_ms"]))

    def measured(self, operation, connections, seconds):
        asked = operation, connections
        if asked not in self.rates:
            self.rates[asked] = self.benchmark(*asked, 4 * ENTRIES, seconds).rate
        got = self.benchmark(*asked, max(ENTRIES, round(seconds * self.rates[asked])), seconds)
        self.rates[asked] = got.rate
        return got

    def end(self):
        self.process.kill()
        self.process.wait(PATIENCE)


@contextlib.contextmanager
def sides():
    """The box with its image on disk, the one with its image in memory, and Redis on the same disk."""
    (TOP / "target" / "bench").mkdir(parents=True, exist_ok=True)
    with contextlib.ExitStack() as ends:
        disk, redis_disk, memory = (pathlib.Path(ends.enter_context(tempfile.TemporaryDirectory(dir=where)))
                                    for where in (TOP / "target" / "bench", TOP / "target" / "bench", MEMORY))
        site = ends.enter_context(program.Site(program.PROGRAM, False, 0))
        redis = Redis(redis_disk)
        ends.callback(redis.end)
        soon("Redis listens", redis.ready)
        yield Box(site, disk), Box(site, memory), redis


def measure(given):
    """What each side did, by its name, the operation and the number of connections."""
    rounds = {}
    with sides() as (disk, memory, redis):
        turns = [("disk", disk, "PUT", "put"), ("memory", memory, "PUT", "put"), ("Redis", redis, "PUT", "set"),
                 ("disk", disk, "GET", "get"), ("Redis", redis, "GET", "get")]
        for _, (name, side, operation, command), connections in itertools.product(range(given.rounds), turns, CONNECTIONS):
            rounds.setdefault((name, operation, connections), []).append(side.measured(command, connections, given.seconds))
    return {what: middle(some) for what, some in rounds.items()}


WHAT = f"""Closed loops; values of {VALUE} bytes, {2 * ENTRIES} blocks, {ENTRIES} entries. Times in microseconds; the client's signing counts in Ridgeladle's.
Redis (SET and GET, appendonly yes, appendfsync always) checks no signature and no permission, and appends a change to a log, which it syncs.
Ridgeladle checks the store, the signature and the permission and signs its reply; a change is the whole image written, synced and renamed.
"""


def show_rates(got):
    print(f"{'':21}{'Ridgeladle':>26}{'Redis':>27}{'Ridgeladle':>13}")
    print(f"{'request, connections':21}{'a second':>10}{'median':>8}{'99%':>8}{'a second':>11}{'median':>8}{'99%':>8}{'of Redis':>13}")
    for operation, connections in itertools.product(("GET", "PUT"), CONNECTIONS):
        ours, theirs = got["disk", operation, connections], got["Redis", operation, connections]
        print(f"{operation:11}{connections:10}{ours.rate:10.0f}{ours.median:8.0f}{ours.p99:8.0f}{theirs.rate:11.0f}{theirs.median:8.0f}{theirs.p99:8.0f}"
              f"{ours.rate / theirs.rate:13.2f}")


def show_disk(got):
    print("\nShare of the disk in a PUT: 1 - time in memory / time on disk; the image in memory is in /dev/shm, time is that of the run by its requests.")
    print(f"{'request, connections':21}{'on disk':>10}{'in memory':>11}{'share':>8}")
    for connections in CONNECTIONS:
        disk, memory = got["disk", "PUT", connections].time(), got["memory", "PUT", connections].time()
        print(f"{'PUT':11}{connections:10}{disk:10.0f}{memory:11.0f}{1 - memory / disk:8.2f}")


def show_library(got):
    print("\nShare of the library's call: time of ridgeladle_answer alone / time of a request, with its image on disk.")
    print(f"{'request, connections':21}{'request':>10}{'call':>11}{'share':>8}")
    for operation, connections in itertools.product(("GET", "PUT"), CONNECTIONS):
        ours = got["disk", operation, connections]
        print(f"{operation:11}{connections:10}{ours.time():10.0f}{ours.call:11.1f}{ours.call / ours.time():8.3f}")


def show(got):
    print(WHAT)
    show_rates(got)
    show_disk(got)
    show_library(got)


def main():
    parser = argparse.ArgumentParser(usage=__doc__)
    parser.add_argument("--seconds", type=float, default=1.2)
    parser.add_argument("--rounds", type=int, default=3)
    try:
        show(measure(parser.parse_args()))
    except (Failed, OSError) as why:
        print(f"tcp: {why}", file=sys.stderr)
        return 1
    return 0


if __name__ == "__main__":
    sys.exit(main())
