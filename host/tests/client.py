"""The client commands against a real server: what they do in the box, what they print, and how they end."""
import csv
import hashlib
import io
import json

import layout
import model
from held import PATIENCE, hold, same
from program import KEY
from readings import SILENT, followed
from wire import Client, all_scope

ALL_BYTES = bytes(range(256))
ODD = b"\0\\\"',\n\r\x7f\x80\xff key"
ALGORITHMS = ["SHA1", "SHA2", "SHA3", "CRC32C", "CRC64", "CRC32"]
NAMES = {code: name for name, code in model.STATUS.items()}
TABLE = model.Table(0, (model.Acl(1, KEY, (all_scope(),)), model.Acl(-7, b"reads", (model.Scope(frozenset({model.READ}), 0, b"a"),))))


class Commands:
    """Commands to one server, counted. `box` is the model's box that its image must hold after each."""

    def __init__(self, site, box, *words):
        self.site, self.box, self.count = site, box, 0
        self.path = site.image(box)
        self.server = site.serve(self.path, *words)

    def run(self, command, *words, key="key", **given):
        """A command to this server, with its key in a file unless it is None."""
        self.count += 1
        options = ["--server", f"127.0.0.1:{self.server.address[1]}", *(["--key-file", key] if key else [])]
        patience = [] if "--timeout" in words else ["--timeout", str(PATIENCE)]
        return self.site.run(command, *options, *patience, *words, **given)

    def good(self, printed, command, *words, **given):
        """A command that succeeds; the image is the model's after it."""
        done = self.run(command, *words, **given)
        same(f"{command} {words}: exit code, output and error", done, (0, printed, ""))
        layout.same_image(f"after {command} {words}", self.path, self.box)

    def refused(self, code, command, *words, **given):
        """A command that the box refuses: nothing on standard output, the status named on standard error, nothing changed."""
        done = self.run(command, *words, **given)
        same(f"{command} {words}: exit code and output, with {done.err!r}", done[:2], (code, b""))
        hold(f"{command} {words}: {NAMES[code]} is not named in {done.err!r}", NAMES[code] in done.err)
        layout.same_image(f"after {command} {words}", self.path, self.box)

    def wrong(self, code, command, *words, **given):
        """A command that fails before or beside the box, with a message."""
        done = self.run(command, *words, **given)
        same(f"{command} {words}: exit code and output, with {done.err!r}", done[:2], (code, b""))
        hold(f"{command} {words}: no message", done.err.strip())
        layout.same_image(f"after {command} {words}", self.path, self.box)
        return done.err

    def holds(self, *entries):
        """From now on the image must hold these entries."""
        self.box.store = model.store_of(entries, len(self.box.store))


def tagged(key, version=b"", value=b""):
    """The entry that `put` makes where no tag is told: the value's SHA-1."""
    return model.Entry(key, version, hashlib.sha1(value).digest(), 1, value)


def lines(entry, value=True):
    """What get, next and previous print of an entry; of a SHA-1 that the value is the right one, where there is a value."""
    tag = "right" if value and entry.algorithm == 1 else layout.text(entry.tag)
    parts = [("key", layout.text(entry.key)), ("version", layout.text(entry.version)), ("tag", tag),
             ("algorithm", entry.algorithm and ALGORITHMS[entry.algorithm - 1]), ("value", value and layout.text(entry.value))]
    return "".join(f"{name} {words}\n" for name, words in parts if words).encode()


def puts_and_gets(run):
    first, odd = tagged(b"a", value=b"one"), model.Entry(ODD, b"v 1", b"\xfftag", 5, ALL_BYTES)
    success = b"SUCCESS\n"
    run.good(success, "noop")
    run.holds(first)
    run.good(success, "put", "a", "one")
    run.holds(first, odd)
    run.good(success, "put", layout.text(ODD), "--value-file", "-", "--new-version", "v 1", "--tag", "\\xfftag", "--algorithm", "CRC64", stdin=ALL_BYTES)
    run.good(lines(first), "get", "a")
    run.good(lines(first, False), "get", "a", "--metadata-only")
    run.good(lines(odd), "get", layout.text(ODD))
    run.good(lines(odd, False), "get", "--metadata-only", layout.text(ODD))
    run.good(ALL_BYTES, "get", "--raw", layout.text(ODD))
    run.good(b"", "get", "--raw", "--metadata-only", "a")
    run.good(b"version v 1\n", "version", layout.text(ODD))
    run.good(lines(first), "next", layout.text(ODD))
    run.good(ALL_BYTES, "previous", "a", "--raw")
    run.refused(7, "get", "b")
    run.refused(7, "version", "b")
    run.refused(7, "next", "a")
    run.refused(7, "previous", "\\x00")
    return first, odd


def changes(run, first, odd):
    success, newline = b"SUCCESS\n", b"two\n"
    run.refused(8, "put", "a", "two", "--db-version", "0")
    second = model.Entry(b"a", b"\x01", b"", 0, newline)
    run.site.write("value", newline)
    run.holds(second, odd)
    run.good(success, "put", "a", "--value-file", "value", "--new-version=\\x01", "--no-tag")
    run.good(lines(second), "get", "a")
    run.refused(8, "put", "a", "three")
    dashes = model.Entry(b"--key", b"2", b"", 4, b"--value")
    run.holds(second, odd, dashes)
    run.good(success, "put", "--new-version", "2", "--algorithm", "CRC32C", "--", "--key", "--value")
    run.refused(14, "put", "fourth of three", "")
    run.holds(tagged(b"a", b"3"), odd, dashes)
    run.good(success, "put", "a", "", "--force", "--new-version", "3")
    run.good(b"key a\nversion 3\ntag right\nalgorithm SHA1\n", "get", "a")
    run.holds(model.Entry(b"a", b"3", b"right"), odd, dashes)
    run.good(success, "put", "a", "", "--force", "--new-version", "3", "--tag", "right")
    run.good(b"key a\nversion 3\ntag right\n", "get", "a")
    run.refused(8, "delete", "a")
    run.holds(odd, dashes)
    run.good(success, "delete", "a", "--db-version", "3")
    run.refused(7, "delete", "a")
    run.good(success, "delete", "a", "--force")
    run.good(success, "flush")
    run.holds(first, odd, dashes)
    run.good(success, "put", "a", "\\x6f\\x6e\\x65")


def others(run):
    keys = [layout.text(ODD) + "\n", "--key\n", "a\n"]
    run.good("".join(keys).encode(), "range", "", "\\xff")
    run.good("".join(keys[::-1]).encode(), "range", "", "\\xff", "--reverse")
    run.good(keys[0].encode(), "range", "", "\\xff", "--max-returned", "1")
    run.good(b"", "range", "a", "a", "--start-inclusive")
    run.good(b"a\n", "range", "a", "a", "--start-inclusive", "--end-inclusive")
    run.good(b"--key\n", "range", layout.text(ODD), "a")
    rows = run.run("range", "", "\\xff", "--csv").out.decode()
    same("range --csv", list(csv.reader(io.StringIO(rows, newline=""), strict=True)), [["key"], *([key[:-1]] for key in keys)])
    same("lines of range --csv that end as RFC 4180 has it", rows.count("\r\n"), len(keys) + 1)
    same("range --json", [json.loads(line) for line in run.run("range", "", "\\xff", "--json").out.splitlines()], [{"key": key[:-1]} for key in keys])
    run.wrong(64, "range", "", "a", "--csv", "--json")
    run.refused(16, "range", "", "a", "--max-returned", "33")
    run.refused(16, "get", "")
    run.refused(16, "get", "k" * 65)
    run.box.record = model.record_of(model.Table(9, TABLE.acls))
    run.good(b"SUCCESS\n", "setup", "--new-cluster-version", "9")
    run.refused(4, "noop")
    run.good(b"SUCCESS\n", "setup", "--cluster-version", "9")
    run.box.record = model.record_of(model.Table(-1, TABLE.acls))
    run.good(b"SUCCESS\n", "setup", "--cluster-version", "9", "--new-cluster-version", "-1")
    run.box.record = model.record_of(TABLE)
    run.good(b"SUCCESS\n", "setup", "--cluster-version", "-1", "--new-cluster-version", "0")


def keys_of_identities(run):
    """Where the key comes from, and what it is worth."""
    run.site.write("wrong", b"another")
    run.site.write("reads", b"reads\n")
    run.site.write("two newlines", KEY + b"\n\n")
    run.refused(2, "noop", key="wrong")
    run.refused(2, "noop", "--identity", "2")
    run.refused(2, "noop", key="two newlines")
    run.good(b"key a\ntag right\nalgorithm SHA1\nvalue one\n", "get", "a", "--identity", "-7", key="reads")
    run.refused(3, "put", "a", "x", "--force", "--identity", "-7", key="reads")
    run.refused(3, "get", "b", "--identity=-7", key="reads")
    run.good(b"SUCCESS\n", "noop", key=None, environment={"RIDGELADLE_KEY": KEY.decode()})
    run.good(b"SUCCESS\n", "noop", environment={"RIDGELADLE_KEY": "another"})
    run.refused(2, "noop", key=None, environment={"RIDGELADLE_KEY": "another"})
    run.wrong(64, "noop", key=None)
    run.wrong(74, "noop", key="missing")


WORDS = {"noop": [], "put": ["a", "x"], "get": ["a"], "version": ["a"], "next": ["a"], "previous": ["a"], "range": ["a", "b"], "delete": ["a"], "flush": [],
         "setup": [], "security": ["table"], "log": ["limits"]}


def wrong_words(run):
    """Words that are wrong, and that no command takes a key as an argument."""
    for command, words in WORDS.items():
        for more in ["--key", KEY.decode()], ["--key=" + KEY.decode()], ["--strange"], ["one", "word", "more"] if command != "log" else ["more"]:
            run.wrong(64, command, *words, *more)
        for option in "--identity", "--cluster-version", "--timeout":
            run.wrong(64, command, *words, option, "one")
    for command, words in WORDS.items():
        if words:
            run.wrong(64, command, *words[1:])
    for command in "put a x --algorithm MD5", "put a x --no-tag --tag t", "put a x --no-tag --algorithm SHA1", \
            "put a x --value-file value", "put a --new-version 1", "get \\n", "get \\x4", "put a \\", "put a x --tag \\xg0", \
            "range a b --max-returned many", "setup --new-cluster-version 1.5", "noop --identity 9223372036854775808", "noop --timeout 0", "get a --force":
        run.wrong(64, *command.split(" "))
    run.wrong(74, "put", "a", "--value-file", "missing")
    for words in ["strange"], ["--image"]:
        done = run.site.run(*words)
        same(f"ridgeladle {words}: exit code, with {done.err!r}", done.code, 64)


def long_values(run):
    """A value of 384 bytes is taken, one more is refused by the client, which names the limit."""
    entries = model.entries_of(run.box.store)
    run.site.write("long", b"w" * 385)
    for words in ["w" * 385], ["--value-file", "long"], ["--value-file", "-"]:
        said = run.wrong(65, "put", "k", *words, "--force", stdin=b"w" * 385)
        hold(f"384 is not named: {said!r}", "384" in said and "385" in said)
    run.holds(*(tagged(b"a", value=b"w" * 384) if entry.key == b"a" else entry for entry in entries))
    run.good(b"SUCCESS\n", "put", "a", "w" * 384, "--force")
    run.holds(*entries)
    run.good(b"SUCCESS\n", "put", "a", "one", "--force")


def client(site):
    """Every client command: what it prints and how it ends, as docs/OPERATING.md says, and the image after it."""
    run = Commands(site, model.Box(bytes(3 * model.BLOCK), model.record_of(TABLE)))
    site.write("table", b"identity 1\nkey x\nscope read\n")
    changes(run, *puts_and_gets(run))
    others(run)
    long_values(run)
    keys_of_identities(run)
    wrong_words(run)
    with Client(run.server.address, run.box) as end:
        same("code of a NOOP at the end", end.ask("NOOP"), 1)
    return f"{run.count} commands: output, exit code and the image after each"


LOG_FILE = b"temperature HDA 36.5 C\ntemperature board 98.6 F\ntemperature spare - C\nutilization EN0 0.25\nutilization \\xffE\\x5c -\n"


def client_log(site):
    """`log` prints a line for each thing, with its name and its number."""
    site.write("readings", LOG_FILE)
    run = Commands(site, model.Box(model.store_of([model.Entry(b"a")], 4 * model.BLOCK), model.record_of(TABLE)), "--readings", "readings")
    sent = model.readings_bytes(model.Readings((model.Reading(b"HDA", 0x42120000), model.Reading(b"board", 0x42c53333, 1), model.Reading(b"spare", SILENT)),
                                               (model.Reading(b"EN0", 0x3e800000), model.Reading(b"\xffE\\", SILENT))))
    with Client(run.server.address, run.box) as first:
        followed(first, "the readings", sent)
    wanted = {"temperatures": [["HDA", "36.5"], ["board", "37"], ["spare"]], "utilizations": [["EN0", "0.25"], ["\\xffE\\\\"]],
              "capacities": [["2048"], ["0.25"]], "limits": [["64"], ["384"], ["16"], ["32"], ["8192"], ["32"], ["8"]]}
    for kind, things in wanted.items():
        done = run.run("log", kind)
        same(f"log {kind}: exit code and error", (done.code, done.err), (0, ""))
        printed = done.out.decode("ascii").splitlines()
        hold(f"log {kind} has not a line for each of {things}: {printed}",
             len(printed) == len(things) and all(set(thing) <= set(line.split(" ")) for thing, line in zip(things, printed)))
    both = run.run("log", "limits", "temperatures")
    same("log of two types: exit code and lines", (both.code, len(both.out.splitlines())), (0, 10))
    for kind in "configuration", "statistics", "messages":
        run.refused(16, "log", kind)
    run.refused(7, "log", "device")
    run.wrong(64, "log")
    run.wrong(64, "log", "weather")
    return f"{run.count} commands: a line for each of 14 things, refusals and wrong words"


TESTS = [client, client_log]
