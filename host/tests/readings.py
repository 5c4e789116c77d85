"""GETLOG shows what the file of readings says, as it changes."""
import fractions
import os
import re
import time

import layout
import model
from held import hold, soon
from messages import log_tree
from wire import NO_READINGS, Client

SILENT = 0x7fc00000


def bits(text):
    return SILENT if text == "-" else model.rounded(fractions.Fraction(text))


def lent(temperatures=(), utilizations=()):
    """The readings of lines as (name, value, unit) and (name, value)."""
    return model.readings_bytes(model.Readings(tuple(model.Reading(name, bits(value), unit == "F") for name, value, unit in temperatures),
                                               tuple(model.Reading(name, bits(value)) for name, value in utilizations)))


# Files, with what they say.
GOOD = [
    (b"# name, value; a temperature with its unit\ntemperature HDA 36.5 C\ntemperature board 98.6 F\nutilization EN0 0.25\n",
     lent([(b"HDA", "36.5", "C"), (b"board", "98.6", "F")], [(b"EN0", "0.25")])),
    (b"\n\ntemperature a -40 F\n  temperature bcdefghijklmnopq 0.1 C  \ntemperature c -273.15 C\ntemperature d - F\nutilization e 1\nutilization f -\n",
     lent([(b"a", "-40", "F"), (b"bcdefghijklmnopq", "0.1", "C"), (b"c", "-273.15", "C"), (b"d", "-", "F")], [(b"e", "1"), (b"f", "-")])),
    (b"utilization \\xff\\\\\xc3\x96\\x80 0.000001\ntemperature x 16777217 C", lent([(b"x", "16777217", "C")], [(b"\xff\\\xc3\x96\x80", "0.000001")])),
    (b"# nothing\n", NO_READINGS), (b"", NO_READINGS),
]
LAST_GOOD = b"temperature sure 20 C\n", lent([(b"sure", "20", "C")])
# Files that are bad, with the number of the line.
BAD = [(b"temperature HDA 36.5\n", 1), (b"temperature HDA 36.5 K\n", 1), (b"# x\ntemperature HDA warm C\n", 2), (b"temperature HDA C\n", 1),
       (b"utilization EN0 0.25 C\n", 1), (b"utilization EN0\n", 1), (b"humidity HDA 40\n", 1), (b"temperature abcdefghijklmnopq 1 C\n", 1),
       (b"temperature a 1 C\n" * 4 + b"\ntemperature a 1 C\n", 6), (b"utilization a 1\nutilization b 1\nutilization c 1\n", 3),
       (b"utilization a 1\nutilization b 1x\n", 2)]


def shows(client, wanted):
    """Whether GETLOG answers as the model does with these readings."""
    data = client.request("GETLOG", log_tree([0, 1])).bytes()
    client.readings = wanted
    client.peer.send(data)
    return client.peer.frame() == b"".join(client.told(data))


def followed(client, what, wanted):
    soon(f"GETLOG shows {what}", lambda: shows(client, wanted))


def readings_file(site):
    """GETLOG follows the file of readings; a bad one is named with its line, and the last good readings stay."""
    path, box = site.format(blocks=2)
    file = site.write("readings", GOOD[0][0])
    server = site.serve(path, "--readings", "readings")
    with Client(server.address, box) as client:
        for data, wanted in GOOD + GOOD[:1]:
            file.write_bytes(data)
            followed(client, f"{data!r}", wanted)
        file.write_bytes(LAST_GOOD[0])
        followed(client, "the last good readings", LAST_GOOD[1])
        for data, line in BAD:
            before = len(server.errors())
            file.write_bytes(data)
            said = soon(f"{data!r} is named", lambda before=before: server.errors()[before:].endswith("\n") and server.errors()[before:])
            hold(f"line {line} of {data!r} is not named: {said!r}", re.search(rf"line {line}\b|:{line}\b", said))
            hold(f"readings of {data!r} are shown", shows(client, LAST_GOOD[1]))
        renamed(site, file, client)
        gone(file, server, client)
    layout.same_image("after readings", path, box)
    return f"{len(GOOD)} files that GETLOG followed, {len(BAD)} bad ones named with their line, one renamed into place, one gone and back"


def renamed(site, file, client):
    """A new file in its place, of the same length, as careful writers make it."""
    site.write("next", LAST_GOOD[0].replace(b"20", b"21"))
    os.replace(site.path("next"), file)
    followed(client, "a file that was renamed into place", lent([(b"sure", "21", "C")]))


def gone(file, server, client):
    """A file that is gone says nothing; the last good readings stay until it is back."""
    file.unlink()
    time.sleep(1.5)
    hold("readings of a file that is gone changed", shows(client, lent([(b"sure", "21", "C")])))
    hold("the server ended without its readings", server.running())
    file.write_bytes(LAST_GOOD[0])
    followed(client, "a file that is back", LAST_GOOD[1])


def readings_start(site):
    """A missing or bad file at the start: the server serves without readings, says why, and takes them once they are good."""
    path, box = site.format(blocks=2)
    for name, data in ("missing", None), ("bad", BAD[0][0]):
        if data:
            site.write(name, data)
        server = site.serve(path, "--readings", name)
        with Client(server.address, box) as client:
            hold(f"readings of a {name} file", shows(client, NO_READINGS))
            said = soon(f"a {name} file is named", server.errors)
            hold(f"the {name} file is not named: {said!r}", name in said)
            site.write(name, LAST_GOOD[0])
            followed(client, f"what was {name}", LAST_GOOD[1])
        server.end()
    return "a missing and a bad file at the start: none shown, said on standard error, and followed from then on"


def readings_pipe(site):
    """A pipe for a file of readings does not stop the start; it is named, and a file in its place is followed."""
    path, box = site.format(blocks=2)
    os.mkfifo(site.path("pipe"))
    server = site.serve(path, "--readings", "pipe")
    with Client(server.address, box) as client:
        hold("readings of a pipe", shows(client, NO_READINGS))
        said = soon("the pipe is named", server.errors)
        hold(f"the pipe is not named: {said!r}", "pipe is not a file" in said)
        site.write("next", LAST_GOOD[0])
        os.replace(site.path("next"), site.path("pipe"))
        followed(client, "a file where a pipe was", LAST_GOOD[1])
    return "a pipe at the start: none shown, said on standard error, and a file in its place followed"


TESTS = [readings_file, readings_start, readings_pipe]
