"""The table of identities as a file: what it says is the record that the image holds after it, and a bad one is named with its line."""
import re

import model
from client import Commands
from held import hold, same
from program import KEY
from wire import all_scope

READ, WRITE, DELETE, RANGE, SETUP, GETLOG, SECURITY = 0, 1, 2, 3, 4, 7, 8

DOCUMENTED = """# who may do what
identity 1                                  # the office
  key-file office.key
  scope read write delete range setup p2pop getlog security power_management
identity 7                                  # the timer at furnace 7
  key-env TIMER_7_KEY
  scope write value timer/7/
identity 20                                 # the tablet
  key-file tablet.key
  scope read range value timer/
  scope getlog tls
"""
DOCUMENTED_ACLS = (
    model.Acl(1, KEY, (all_scope(),)), model.Acl(7, b"furnace", (model.Scope(frozenset({WRITE}), 0, b"timer/7/"),)),
    model.Acl(20, b"tablet\n", (model.Scope(frozenset({READ, RANGE}), 0, b"timer/"), model.Scope(frozenset({GETLOG}), tls=True))))

# Tables with what they stand for; of these, key-file paths are from the table's folder.
GOOD = [
    (DOCUMENTED, DOCUMENTED_ACLS),
    ("identity 1\nkey-file office.key\nscope security setup # a comment\n\n\n#\nidentity -9223372036854775808\n\tkey  \\x00\\\\\\xff#no-comment\n"
     "scope read tls offset 64 value \\x20#\\x23\n",
     (model.Acl(1, KEY, (model.Scope(frozenset({SETUP, SECURITY})),)),
      model.Acl(-1 << 63, b"\0\\\xff#no-comment", (model.Scope(frozenset({READ}), 64, b" ##", True),)))),
    ("identity 1\nscope read value x offset 3\nscope write offset 3 tls value y\nscope delete\nscope range security\nkey-file office.key",
     (model.Acl(1, KEY, (model.Scope(frozenset({READ}), 3, b"x"), model.Scope(frozenset({WRITE}), 3, b"y", True), model.Scope(frozenset({DELETE})),
                         model.Scope(frozenset({RANGE, SECURITY})))),)),
    ("".join(f"identity {n}\nkey-file office.key\nscope read security\n" for n in range(1, 9)),
     tuple(model.Acl(n, KEY, (model.Scope(frozenset({READ, SECURITY})),)) for n in range(1, 9))),
]
HEAD = "identity 1\nkey-file office.key\nscope read\n"
# What can't be read, with the number of its line.
BAD = [("key k\nscope read\n", 1), ("scope read\n", 1), (HEAD + "identity\n", 4), (HEAD + "identity one\n", 4), (HEAD + "strange 1\n", 4),
       (HEAD + "identity 9223372036854775808\n", 4), (HEAD + "key k\n", 4), (HEAD + "\n# c\nscope reed\n", 6), (HEAD + "scope read offset\n", 4),
       (HEAD + "scope read offset x\n", 4),
       (HEAD + "scope read value\n", 4), (HEAD + "scope read value \\n\n", 4), (HEAD + "scope read value # x\n", 4),
       (HEAD + "identity 2\nkey \\xg0\n", 5),
       (HEAD + "identity 2\nkey-env NO_SUCH_VARIABLE\nscope read\n", 5), (HEAD + "identity 2\nscope read\nidentity 3\nkey k\nscope read\n", 4)]
# What Kinetic forbids; the box refuses it.
FORBIDDEN = ["", "# nobody\n", HEAD + HEAD, HEAD + "scope read offset 65\n", HEAD + "scope read offset -1\n", HEAD + f"scope read value {'v' * 65}\n",
             HEAD + f"identity 2\nkey {'k' * 65}\nscope read\n"]
# What docs/OPERATING.md gives a number for, which either of them may refuse.
COUNTED = ["".join(f"identity {n}\nkey-file office.key\nscope read\n" for n in range(9)), HEAD + "scope read\n" * 4, HEAD + "identity 2\nkey k\n"]


def security_file(site):
    """`security FILE`: the record of the image is what the file says; files that can't be read are named with their line, and what Kinetic forbids the box
    refuses."""
    folder = site.path("tables")
    folder.mkdir()
    (folder / "office.key").write_bytes(KEY + b"\n")
    (folder / "tablet.key").write_bytes(b"tablet\n\n")
    run = Commands(site, model.Box(bytes(model.BLOCK), model.record_of(model.Table(3, (model.Acl(1, KEY, (all_scope(),)),)))))
    words = ["tables/table", "--cluster-version", "3"]
    environment = {"TIMER_7_KEY": "furnace"}

    def write(text):
        (folder / "table").write_bytes(text.encode())

    for text, acls in GOOD:
        run.box.record = model.record_of(model.Table(3, acls))
        write(text)
        run.good(b"SUCCESS\n", "security", *words, environment=environment)
    for text, line in BAD:
        write(text)
        said = run.wrong(65, "security", *words)
        hold(f"line {line} is not named of {text!r}: {said!r}", re.search(rf"\bline {line}\b|\btable:{line}\b", said))
    for text in FORBIDDEN:
        write(text)
        run.refused(16, "security", *words, "--without-me")
    for text in COUNTED:
        write(text)
        done = run.run("security", *words)
        hold(f"exit code {done.code} of {text!r}", done.code in (16, 65) and done.out == b"" and done.err)
    write("identity 1\nkey-file missing.key\nscope read\n")
    hold("a key file that is missing", run.run("security", *words).code in (65, 74))
    run.wrong(74, "security", "missing", "--cluster-version", "3")
    same("record at the end", model.table_of(run.box.record).acls, GOOD[-1][1])
    return f"{len(GOOD)} good tables, {len(BAD)} that can't be read, {len(FORBIDDEN) + len(COUNTED)} that are refused: exit codes, lines named, and the record"


def security_sender(site):
    """A table that lacks its sender is not sent, unless it is told to be: --without-me."""
    both = model.Acl(1, KEY, (all_scope(),)), model.Acl(2, KEY, (all_scope(),))
    run = Commands(site, model.Box(bytes(model.BLOCK), model.record_of(model.Table(0, both))))
    site.write("table", b"identity 2\nkey-file key\nscope security\n")
    for words, sender in ([], "1"), (["--identity", "3"], "3"), (["--identity", "-2"], "-2"):
        said = run.wrong(65, "security", "table", *words)
        hold(f"identity {sender} and --without-me are not named: {said!r}", f"identity {sender}," in said and "--without-me" in said)
    run.box.record = model.record_of(model.Table(0, (model.Acl(2, KEY, (model.Scope(frozenset({SECURITY})),)),)))
    run.good(b"SUCCESS\n", "security", "table", "--without-me")
    run.refused(2, "noop")
    run.good(b"SUCCESS\n", "security", "table", "--identity", "2")
    return f"{run.count} commands: refused before the box, and sent where it is meant"


TESTS = [security_file, security_sender]
