"""The image: made, shown, and refused where it is not whole; one server for each."""
import csv
import hashlib
import io
import json
import os
import pathlib
import signal
import socket
import stat

import layout
import model
from held import hold, same
from program import KEY
from wire import Client, all_scope, pair

ALGORITHMS = ["", "SHA1", "SHA2", "SHA3", "CRC32C", "CRC64", "CRC32"]
HEAD = ["place", "key", "version", "tag", "algorithm", "value"]
ENTRIES = [model.Entry(b"\0", b"\xff" * 16, b'"', 1, b'a "quoted" word, and a comma'), model.Entry(b"=1+1", b",", b"\r\n", 2, bytes(range(256))),
           model.Entry(b"\\x41", b"\\", b"t" * 32, 3, b"w" * 384), model.Entry(b"k" * 64, b"", b"", 6, b" both ends "),
           model.Entry("Öl".encode(), b"'", b"\t", 4, b"\n"), model.Entry("火炉/31,4 °C".encode() + b"\xe2\x82", "\u202e\x85".encode()),
           model.Entry(b"\xff" * 64)]
TABLE = model.Table(-5, (model.Acl(1, KEY, (all_scope(),)), model.Acl(-77, b"secret of -77", (model.Scope(frozenset({0})),))))


def box_of(entries=tuple(ENTRIES), blocks=9):
    return model.Box(model.store_of(entries, blocks * model.BLOCK), model.record_of(TABLE))


def mode_of(path):
    return stat.S_IMODE(os.stat(path).st_mode)


def image_format(site):
    """`format`: the image is what the model formats, for its owner alone; it writes over no file but with --replace; wrong blocks and keys are refused."""
    count = 0

    def formatted(name, *words, key=KEY):
        site.write("a key", key)
        return site.run("format", "--image", name, "--key-file", "a key", *words)

    for key, words, blocks in (b"k", [], 128), (b"k" * 64 + b"\n", ["--blocks", "1"], 1), (b"\n\n", ["--blocks=128"], 128), \
            (bytes(range(63)), ["--blocks", "77"], 77):
        name = f"{count}.image"
        same(f"format {words}: exit code and error", formatted(name, *words, key=key)[::2], (0, ""))
        layout.same_image(f"format {words}", site.path(name), layout.formatted(key[:-1] if key.endswith(b"\n") else key, blocks))
        same("its mode", mode_of(site.path(name)), 0o600)
        count += 1
    layout.write(site.path("0.image"), box_of())
    os.chmod(site.path("0.image"), 0o644)
    done = formatted("0.image", key=b"other")
    hold(f"format over a file: {done}", done.code in (64, 74) and done.err)
    layout.same_image("after format over a file", site.path("0.image"), box_of())
    same("format --replace", formatted("0.image", "--replace", "--blocks", "2", key=b"other").code, 0)
    layout.same_image("after format --replace", site.path("0.image"), layout.formatted(b"other", 2))
    same("its mode after --replace", mode_of(site.path("0.image")), 0o600)
    for key, words in (KEY, ["--blocks", "0"]), (KEY, ["--blocks", "129"]), (KEY, ["--blocks", "-1"]), (KEY, ["--blocks", "x"]), (b"", []), (b"\n", []), \
            (b"k" * 65, []), (b"k" * 65 + b"\n", []), (KEY, ["--strange"]), (KEY, ["word"]):
        done = formatted("new.image", *words, key=key)
        hold(f"format {words} with a key of {len(key)}: {done}", done.code in (64, 65) and done.out == b"" and done.err)
        hold(f"format {words} wrote an image", not site.path("new.image").exists())
        count += 1
    same("format without an image's name", site.run("format", "--key-file", "key").code, 64)
    same("format without a key", site.run("format", "--image", "new.image").code, 64)
    same("format with a key that is missing", site.run("format", "--image", "new.image", "--key-file", "missing").code, 74)
    same("format in no folder", site.run("format", "--image", "no/new.image", "--key-file", "key").code, 74)
    return f"{count + 6} formats, good and refused: images, modes and exit codes"


def rows_of(entries):
    return [HEAD] + [[str(place), layout.text(e.key), layout.text(e.version), layout.text(e.tag), ALGORITHMS[e.algorithm], layout.text(e.value)]
                     for place, e in enumerate(entries)]


def shown_csv(site, path, entries, what):
    done = site.run("show", "--image", path, "--csv")
    same(f"show --csv {what}: exit code and error", (done.code, done.err), (0, ""))
    same(f"rows of show --csv {what}", list(csv.reader(io.StringIO(done.out.decode(), newline=""), strict=True)), rows_of(entries))
    same(f"lines of show --csv {what} that end as RFC 4180 has it", done.out.count(b"\r\n"), len(entries) + 1)
    hold("a secret in the CSV", b"secret" not in done.out and KEY not in done.out)
    lines = site.run("show", "--image", path, "--json")
    same(f"show --json {what}: exit code and error", (lines.code, lines.err), (0, ""))
    same(f"lines of show --json {what}", [list(json.loads(line).items()) for line in lines.out.decode().splitlines()],
         [list(zip(HEAD, [int(row[0]), *row[1:]])) for row in rows_of(entries)[1:]])
    hold("a secret in the JSON lines", b"secret" not in lines.out and KEY not in lines.out)


def image_show(site):
    """`show` has every key, `show --csv` and `--json` all of every entry for Python's csv and json, also while the box serves; none shows a secret or changes
    the image."""
    path = site.image(box_of())
    for entries in ENTRIES, [], [model.Entry(b"k%03d" % n, value=b"v") for n in range(128)]:
        box = box_of(entries, 128 if len(entries) > 9 else 9)
        layout.write(path, box)
        shown_csv(site, path, entries, "of an image at rest")
        done = site.run("show", "--image", path)
        same("show: exit code and error", (done.code, done.err), (0, ""))
        words = done.out.decode()
        hold("a key that show leaves out", all(layout.text(entry.key)[:40] in words for entry in entries))
        hold("a secret in what show prints", "secret" not in words and KEY.decode() not in words)
        layout.same_image("after show", path, box)
    box = box_of()
    layout.write(path, box)
    server = site.serve(path)
    same("blocks that the server names", (server.used, server.blocks), (7, 9))
    with Client(server.address, box) as client:
        shown_csv(site, path, ENTRIES, "while it serves")
        same("code of a PUT", client.put(b"more", b"new"), 1)
        shown_csv(site, path, model.entries_of(box.store), "after a PUT")
    same("mode of an image that a server wrote", mode_of(path), 0o600)
    same("show without an image's name", site.run("show").code, 64)
    same("show --csv --json", site.run("show", "--image", path, "--csv", "--json").code, 64)
    same("show of no image", site.run("show", "--image", "missing").code, 74)
    return f"{len(ENTRIES)} odd entries, 128 and none, read back by Python's csv and json, at rest and while serving"


def turned(data, place):
    return data[:place] + bytes([data[place] ^ 1 << place % 8]) + data[place + 1:]


def damages(data):
    """What a file may be instead of an image: words, bytes, and whether a rescue may help."""
    for place in [0, 5, 6, 7, 8, 11, 12, 15, 16, 35, 36, 55, 56, 63]:
        yield f"byte {place} of the head turned", turned(data, place), True
    for place in [0, 7, 8, 9, 16, 24, 40, 384, 500, 1000, 2959]:
        yield f"byte {place} of the record turned", turned(data, layout.RECORD_AT + place), True
    for place in [0, 1, 7, 8, 72, 120, 511, 512, 6 * 512, 7 * 512, 9 * 512 - 1]:
        yield f"byte {place} of the store turned", turned(data, layout.STORE_AT + place), True
    first, second, third = (layout.STORE_AT + n * model.BLOCK for n in range(3))
    yield "two blocks changed over", data[:first] + data[second:third] + data[first:second] + data[third:], True
    yield "the last byte gone", data[:-1], True
    yield "the last block gone", data[:-512], True
    yield "one byte too many", data + b"\0", True
    yield "one block too many", data + bytes(512), True
    yield "bytes after the last block of a full image", layout.image_of(box_of(blocks=128)) + b"litter", True
    yield "another number of used blocks", resealed(data[:12] + bytes([0, 0, 0, 5]) + data[16:]), True
    yield "more used blocks than there are", resealed(data[:12] + bytes([0, 0, 0, 10]) + data[16:]), True
    yield "an unknown layout", resealed(data[:7] + b"\3" + data[8:]), True
    yield "cut in the record", data[:2000], False
    yield "cut in the head", data[:30], False
    yield "empty", b"", False
    yield "another file", b"Dear office,\n" * 1000, False


def resealed(data):
    """An image whose head's digest is right again."""
    return data[:56] + hashlib.sha1(data[:56]).digest()[:8] + data[64:]


def image_refused(site):
    """Images that are missing, cut, or have a byte turned anywhere: serve and show refuse them, and name rescue."""
    path, count = site.path("box.image"), 0
    for what, data, hope in damages(layout.image_of(box_of())):
        path.write_bytes(data)
        for command in ["serve", "--listen", "127.0.0.1:0"], ["show"], ["show", "--csv"]:
            done = site.run(*command, "--image", path)
            hold(f"{command[0]} with {what}: {done}", done.code in (65, 74) and done.out == b"" and done.err)
            hold(f"{command[0]} with {what} does not name rescue: {done.err!r}", not hope or "rescue" in done.err)
            same(f"the file after {command[0]} with {what}", path.read_bytes(), data)
        count += 1
    path.unlink()
    for words in ["serve", "--image", path, "--listen", "127.0.0.1:0"], ["show", "--image", path]:
        same(f"{words[0]} without an image: exit code", site.run(*words).code, 74)
        hold(f"{words[0]} made an image", not path.exists())
    path.mkdir()
    hold("serve with a folder for an image", site.run("serve", "--image", path, "--listen", "127.0.0.1:0").code in (65, 74))
    return f"{count} damaged files, a missing one and a folder: refused by serve and show, and left as they were"


def image_one(site):
    """A second server on an image is refused, by whatever name, as is a port in use; the first goes on. The lock ends with the server."""
    path, box = site.format(blocks=2)
    os.symlink(path, site.path("by another name"))
    server = site.serve(path)
    for name in path, "box.image", "./box.image", "by another name":
        done = site.run("serve", "--image", name, "--listen", "127.0.0.1:0")
        hold(f"a second server on {name}: {done}", done.code == 74 and done.out == b"" and done.err)
    for words in ["rescue", "--image", path], ["format", "--image", path, "--key-file", "key", "--replace"]:
        done = site.run(*words)
        same(f"{words[0]} while it serves: exit code, with {done.err!r}", done.code, 74)
    other, _ = site.format("other.image", 2)
    with socket.create_server(("127.0.0.1", 0)) as taken:
        port = f"127.0.0.1:{taken.getsockname()[1]}"
        for words in ["--listen", port], ["--listen", "127.0.0.1:0", "--protected-listen", port]:
            done = site.run("serve", "--image", other, *words)
            hold(f"a port in use, {words[-2]}: {done}", done.code == 74 and done.err)
    for words in ["--listen", "nonsense"], ["--connections", "0"], ["--idle", "0"], ["--idle", "x"], ["--strange"], ["word"]:
        done = site.run("serve", "--image", other, *words) if words[0] == "--listen" else site.run("serve", "--image", other, "--listen", "127.0.0.1:0", *words)
        hold(f"serve {words}: {done}", done.code in (64, 74) if words[0] == "--listen" else done.code == 64)
    with Client(server.address, box) as client:
        same("code of a PUT to the first", client.put(b"k", b"v"), 1)
    layout.same_image("after others tried", path, box)
    server.end()
    same("used blocks for the next server", site.serve(path).used, 1)
    hold("the lock is where it should be", pathlib.Path(f"{path}.lock").exists())
    return "4 names of one image, rescue and format beside a server, 2 ports in use, 6 wrong words: refused, and the first goes on"


def refused_beside(site, path, what):
    """No second program gets the image that a server has."""
    for words in ["serve", "--listen", "127.0.0.1:0"], ["rescue"], ["reset-table", "--key-file", "key"], ["format", "--key-file", "key", "--replace"]:
        done = site.run(*words, "--image", path)
        hold(f"{words[0]} {what}: {done}", done.code == 74 and done.out == b"" and "another ridgeladle" in done.err)


def image_locked(site):
    """The lock holds where FILE.lock is taken away, and through a hard link of the image, made before or while it serves; changes acknowledged stay."""
    path, box = site.format(blocks=4)
    link, later = site.path("link.image"), site.path("later.image")
    os.link(path, link)
    server = site.serve(path)
    with Client(server.address, box) as client:
        for turn in "before a change", "after a change":
            pathlib.Path(f"{path}.lock").unlink()
            refused_beside(site, path, f"with FILE.lock taken away, {turn}")
            refused_beside(site, link, f"through a hard link, {turn}")
            same("code of a PUT", client.put(b"k", turn.encode(), force=1), 1)
            layout.same_image("after a PUT", path, box)
        os.link(path, later)
        same("code of a PUT", client.put(b"k", b"newer", force=1), 1)
        for name in path, link, later:
            refused_beside(site, name, "when all names are of other files")
        layout.same_image("after all that was refused", path, box)
    server.end(signal.SIGTERM)
    with Client(site.serve(path).address, box) as client:
        same("code of a GET of what was acknowledged", client.ask("GET", pair(b"k")), 1)
    return "28 programs beside a server, with FILE.lock taken away and by 2 hard links: refused; each acknowledged change is there"


def image_lock_file(site):
    """FILE.lock that is a link, or has something in it: no file is cut, and no link followed."""
    path, box = site.format(blocks=2)
    lock, other = pathlib.Path(f"{path}.lock"), site.write("precious", b"not to be cut")
    mode = mode_of(other)
    lock.unlink()
    lock.symlink_to(other)
    for words in ["serve", "--listen", "127.0.0.1:0"], ["rescue"], ["reset-table", "--key-file", "key"], ["format", "--key-file", "key", "--replace"]:
        done = site.run(*words, "--image", path)
        hold(f"{words[0]} with a link for FILE.lock: {done}", done.code == 74 and done.out == b"" and ".lock" in done.err)
        same("the file behind the link", other.read_bytes(), b"not to be cut")
    lock.unlink()
    lock.symlink_to(site.path("missing"))
    same("serve with a link to nothing for FILE.lock", site.run("serve", "--image", path, "--listen", "127.0.0.1:0").code, 74)
    hold("a file was made behind a link", not site.path("missing").exists())
    lock.unlink()
    os.link(other, lock)
    with Client(site.serve(path).address, box) as client:
        same("code of a PUT", client.put(b"k", b"v"), 1)
    same("a file that is FILE.lock too", (other.read_bytes(), mode_of(other)), (b"not to be cut", mode))
    return "4 commands with a link for FILE.lock, 1 with a link to nothing: refused; the file behind is whole, also where it is FILE.lock itself"


def image_replaced(site):
    """Another file in the image's place while it serves is not written over: changes are refused until the image is back. An image that is gone is written."""
    path, box = site.format(blocks=4)
    other, _ = site.format("other.image", 2)
    away, data = site.path("away.image"), other.read_bytes()
    server = site.serve(path)
    with Client(server.address, box) as client:
        same("code of a PUT", client.put(b"k", b"v"), 1)
    path.rename(away)
    other.rename(path)
    with Client(server.address, box) as client:
        client.peer.send(client.request("PUT", pair(b"new"), b"lost").bytes())
        same("reply to a PUT with another file in the image's place", client.peer.rest(), b"")
    same("the other file", path.read_bytes(), data)
    path.unlink()
    away.rename(path)
    with Client(server.address, box) as client:
        same("code of a PUT when the image is back", client.put(b"k", b"back", force=1), 1)
        layout.same_image("after it", path, box)
        path.unlink()
        same("code of a PUT when the image is gone", client.put(b"k", b"gone", force=1), 1)
    layout.same_image("after that", path, box)
    return "another file in its place: not written over, and the change refused; back, or gone: written"


OLDER = pathlib.Path(__file__).resolve().parent / "data" / "layout1.img"
OLDER_ENTRIES = [model.Entry(b"timer/7/10:00:30", b"1", b"", 0, b"WBGT 31.4 C, work 30 min, rest 30 min"),
                 model.Entry(b"timer/7/10:01:00", b"", b"\0\xff", 6, b"WBGT 31.6 C, work 15 min, rest 45 min")]


def image_older(site):
    """An image that an earlier program wrote (layout 1): shown and served as it is, written as layout 2 at the next change, and nothing of it is lost."""
    data = OLDER.read_bytes()
    path, box = site.write("box.image", data), layout.box_of(data, 1)
    same("its entries", model.entries_of(box.store), OLDER_ENTRIES)
    same("its cluster version and identities", (model.table_of(box.record).cluster, [acl.identity for acl in model.table_of(box.record).acls]), (3, [1, 7]))
    shown_csv(site, path, OLDER_ENTRIES, "of layout 1")
    server = site.serve(path)
    same("blocks that the server names", (server.used, server.blocks), (2, 4))
    with Client(server.address, box) as client:
        for entry in OLDER_ENTRIES:
            same("code of a GET", client.ask("GET", pair(entry.key)), 1)
        same("the file before a change", path.read_bytes(), data)
        same("code of a PUT", client.put(b"timer/7/10:01:30", b"WBGT 31.7 C"), 1)
    layout.same_image("after a PUT", path, box)
    server.end()
    with Client(site.serve(path).address, box) as client:
        same("entries of the next server", [client.ask("GET", pair(entry.key)) for entry in OLDER_ENTRIES], [1, 1])
    return "an image of layout 1 with 2 entries and 2 identities: shown, served, and written as layout 2 at a PUT"


TESTS = [image_format, image_show, image_refused, image_older, image_one, image_locked, image_lock_file, image_replaced]
