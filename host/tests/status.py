"""`status`: how full a box is, its cluster version and its temperatures, and the exit code for a monitor."""
import layout
import model
from client import Commands
from held import hold, same
from impostors import free_port
from program import KEY
from wire import all_scope

READINGS = b"temperature HDA 36.5 C\ntemperature board 98.6 F\nutilization EN0 0.25\n"
LINES = b"temperature HDA 36.5 C\ntemperature board 37 C\n"
ACLS = model.Acl(1, KEY, (all_scope(),)), model.Acl(2, KEY, (model.Scope(frozenset({model.READ})),))
# How many of how many blocks are used, options, and the exit code: 90 % is the limit if not said.
FULL = [(0, 1, [], 0), (1, 1, [], 75), (8, 9, [], 0), (9, 10, [], 75), (115, 128, [], 0), (116, 128, [], 75), (128, 128, [], 75),
        (116, 128, ["--most-used", "91"], 0), (1, 128, ["--most-used", "1"], 0), (2, 128, ["--most-used", "1"], 75), (127, 128, ["--most-used=100"], 0)]


def box_of(used, blocks, cluster=0):
    entries = [model.Entry(b"k%03d" % n) for n in range(used)]
    return model.Box(model.store_of(entries, blocks * model.BLOCK), model.record_of(model.Table(cluster, ACLS)))


def status_full(site):
    """How many blocks are used, of a box and of its image, and 75 where that is the limit or more."""
    for used, blocks, words, code in FULL:
        run = Commands(site, box_of(used, blocks, 7))
        lines = f"{used} of {blocks} blocks used\ncluster version 7\n".encode()
        for done in run.run("status", "--cluster-version", "7", *words), site.run("status", "--image", run.path, *words):
            same(f"status of {used} of {blocks} with {words}: exit code and output", done[:2], (code, lines))
            hold(f"status of {used} of {blocks}: {done.err!r}", (f"{used} of {blocks} blocks" in done.err) == (code == 75) == bool(done.err))
        run.server.end()
    return f"{len(FULL)} boxes, served and as images"


def status(site):
    """The temperatures and their limit, a silent sensor among them; what any client command may meet, and wrong words."""
    head = b"1 of 4 blocks used\ncluster version 0\n"
    site.write("silent", READINGS + b"temperature spare - C\n")
    silent = Commands(site, box_of(1, 4), "--readings", "silent")
    for words, code in ([], 0), (["--most-degrees", "99"], 75):
        same(f"status {words} with a silent sensor", silent.run("status", *words)[:2], (code, head + LINES + b"temperature spare - C\n"))
    silent.server.end()
    site.write("readings", READINGS)
    run = Commands(site, box_of(1, 4), "--readings", "readings")
    for words, code in ([], 0), (["--most-degrees", "37.1"], 0), (["--most-degrees", "37"], 75), (["--most-degrees=-300"], 75):
        done = run.run("status", *words)
        same(f"status {words}: exit code and output", done[:2], (code, head + LINES))
        hold(f"status {words}: {done.err!r}", ("board is at 37 C" in done.err) == (code == 75))
    run.refused(3, "status", "--identity", "2")
    run.refused(4, "status", "--cluster-version", "1")
    same("status of no box", site.run("status", "--server", f"127.0.0.1:{free_port()}", "--key-file", "key").code, 69)
    same("status of no image", site.run("status", "--image", "missing").code, 74)
    site.write("damaged", layout.image_of(box_of(1, 4))[:-1])
    same("status of a damaged image", site.run("status", "--image", "damaged").code, 65)
    for words in ["--most-used", "0"], ["--most-used", "101"], ["--most-degrees", "warm"], ["--most-degrees", "nan"], ["word"], ["--csv"]:
        run.wrong(64, "status", *words)
    return f"{run.count + silent.count + 3} commands: output and exit codes"


TESTS = [status_full, status]
