"""`rescue`: the new image holds what the model's rescue keeps, under the same record; the old file is not lost."""
import hashlib
import os
import pathlib
import re
import subprocess

import layout
import model
import sessions
from held import hold, same
from image import TABLE, box_of, turned
from program import KEY, TOP
from wire import Client, all_scope, pair


def beside(path, ending):
    return pathlib.Path(f"{path}{ending}")


def with_store(box, store):
    """The image of a box, under its old digests, with another store."""
    return layout.image_of(box)[:layout.STORE_AT] + store


def counts_of(words):
    """The numbers of readings kept, lost, and gone without trace, as the program says them; None where it says that the last is not known."""
    counts = re.search(r"(\d+)[^\n\d]*\bkept\b[^\n\d]*(\d+)[^\n\d]*\blost\b(?:[^\n\d]*(\d+)[^\n\d]*\bgone without trace\b)?", words)
    hold(f"no counts of kept and lost in {words[-300:]!r}", counts)
    unknown = "gone without trace is not known" in words
    hold("a count that is not known", not (unknown and counts[3]))
    return int(counts[1]), int(counts[2]), None if unknown else int(counts[3] or 0)


def hold_account(words, report, used):
    """The counts are the report's, and each place that was not blank is named. `used` is how many readings there were, None where the head does not say."""
    bad = [place for place, how in enumerate(report) if how in (model.CHECK_WRONG, model.RULE_BROKEN, model.KEY_TWICE)]
    kept, lost = report.count(model.KEPT), sum(used is None or place < used for place in bad)
    gone = None if used is None else max(0, used - kept - lost)
    same("readings kept, lost and gone, as it says", counts_of(words), (kept, lost, gone))
    same("places that never had a reading", words.count("no reading"), len(bad) - lost)
    words = words.replace("no reading", "lost")
    rows = [line.split() for line in words.splitlines() if ("kept" in line) != ("lost" in line)]
    became = {int(row[0]): "kept" in row for row in rows if row[0].isdigit()}
    same("places named, and whether they are kept", became, {place: how == model.KEPT for place, how in enumerate(report) if how != model.WAS_BLANK})


def rescued(site, path, data, box, in_place=False, words=(), record=None):
    """Rescues a file with these bytes, whose store is `box`'s as it was damaged; the new image is the model's. A head that is not what was written does not
    say how many readings there were."""
    used = int.from_bytes(data[12:16], "big") if data[7] == 2 and data[56:64] == hashlib.sha1(data[:56]).digest()[:8] else None
    path.write_bytes(data)
    mode = site.random.choice((0o600, 0o640))
    path.chmod(mode)
    _, store, report = model.rescue(box.store, bytes(len(box.store) // model.BLOCK))
    done = site.run("rescue", "--image", path, *(["--in-place"] if in_place else []), *words)
    same(f"rescue: exit code, with {done.err!r}", done.code, 0)
    hold_account(done.out.decode(), report, used)
    new, old = (path, beside(path, ".damaged")) if in_place else (beside(path, ".rescued"), path)
    layout.same_image("rescued image", new, model.Box(store, record or box.record))
    same("its mode", new.stat().st_mode & 0o777, mode)
    same("old image", old.read_bytes(), data)
    hold("the other name is there too", not beside(path, ".rescued" if in_place else ".damaged").exists())
    (old if in_place else new).unlink()
    return store


def damaged_stores(site, box):
    """Stores with blocks damaged, doubled, moved, blanked; none is good as it is."""
    drawn = sessions.Site(site.random)
    drawn.keys = [b"a", b"b", b"more", b"\xff" * 64]
    for _ in range(200 if site.thorough else 40):
        store = sessions.worse(drawn, box.store)
        if store != box.store:
            yield store


def rescue(site):
    """Damaged stores: the rescued image holds what the model keeps, under the same record, beside the old one or in its place, and the box serves it."""
    path, count = site.path("box.image"), 0
    box = box_of([model.Entry(b"key %02d" % n, b"%d" % n, b"", n % 7, b"value %d" % n) for n in range(20)], 24)
    for store in damaged_stores(site, box):
        rescued(site, path, with_store(box, store), model.Box(store, box.record), site.random.random() < .5)
        count += 1
    store = rescued(site, path, with_store(box, turned(box.store, 3 * 512 + 130)), model.Box(turned(box.store, 3 * 512 + 130), box.record), True)
    now = model.Box(store, box.record)
    with Client(site.serve(path).address, now) as client:
        same("code of what was lost", client.ask("GET", pair(b"key 03")), 7)
        same("code of what was kept", client.ask("GET", pair(b"key 04")), 1)
        same("code of a PUT of what was lost", client.put(b"key 03", b"anew"), 1)
    layout.same_image("after a rescue and a PUT", path, now)
    return f"{count + 1} damaged images: rescued as the model does, with its counts, the old file kept"


def rescue_ways(site):
    """A record that is damaged, a head that is damaged, a file that is cut, one that is whole: what rescue does of each."""
    path, box = site.path("box.image"), box_of()
    store = turned(box.store, 130)
    data = with_store(box, store)
    spoilt_record(site, path, box, data)
    for place in range(36, 56):
        rescued(site, path, turned(layout.image_of(box), place), box)
    for place in 0, 5, 7, 12, 15, 56, 63:
        rescued(site, path, turned(data, place), model.Box(store, box.record))
    for cut in 1, 511, 512, 513, 5 * 512 + 100:
        rescued(site, path, layout.image_of(box)[:-cut], model.Box(box.store[:-cut].ljust(len(box.store), b"\0"), box.record))
    path.write_bytes(layout.image_of(box))
    same("rescue of a whole image", site.run("rescue", "--image", path).code, 0)
    layout.same_image("after rescue of a whole image", path, box)
    hold("rescue of a whole image wrote another", not beside(path, ".rescued").exists())
    for what, code in ("missing", 74), ("key", 65):
        same(f"rescue of {what}", site.run("rescue", "--image", what).code, code)
    same("rescue without an image's name", site.run("rescue").code, 64)
    return "5 damaged records with and without a key, 27 damaged heads, 5 files cut short, a whole one"


def spoilt_record(site, path, box, data):
    """A damaged record is not used: a key is wanted, and the record is that of a new box."""
    fresh = layout.formatted(KEY, 1).record
    for place in 0, 8, 24, 40, model.RECORD - 1:
        spoilt = turned(data, layout.RECORD_AT + place)
        path.write_bytes(spoilt)
        done = site.run("rescue", "--image", path)
        hold(f"byte {place} of the record turned, no key: {done}", done.code in (64, 65) and "key" in done.err)
        same("the image after it", path.read_bytes(), spoilt)
        hold("a new image was made", not beside(path, ".rescued").exists())
        lost = model.Box(data[layout.STORE_AT:], box.record)
        rescued(site, path, spoilt, lost, place % 2 == 0, ["--key-file", "key"], fresh)
    hold("the table that was lost is another", model.record_of(TABLE) != fresh)


def without_trace(site):
    """Readings that left no trace: zeroed, or cut off with the end of the file. Rescue says how many; of an image of layout 1 that it can't know."""
    path, entries = site.path("box.image"), [model.Entry(b"key %03d" % n, value=b"v%d" % n) for n in range(100)]
    box, tried = box_of(entries, 128), 0
    data, cut = layout.image_of(box), layout.STORE_AT + 32 * model.BLOCK
    words = rescued_words(site, path, data[:cut])
    same("kept, lost and gone of a file cut at a block", counts_of(words), (32, 0, 68))
    for blank in range(100), [0], [99], [3, 4, 5, 50], []:
        for broken in [], [7], [7, 98]:
            store = bytearray(box.store)
            for place in blank:
                store[place * model.BLOCK:(place + 1) * model.BLOCK] = bytes(model.BLOCK)
            for place in broken:
                store[place * 512 + 200] ^= 1
            if bytes(store) == box.store:
                continue
            rescued(site, path, with_store(box, bytes(store)), model.Box(bytes(store), box.record))
            tried += 1
    litter = bytearray(box.store)
    litter[110 * 512 + 9], litter[5 * 512:6 * 512] = 1, bytes(512)
    rescued(site, path, with_store(box, bytes(litter)), model.Box(bytes(litter), box.record))
    full = box_of(entries + [model.Entry(b"z %02d" % n) for n in range(28)], 128)
    rescued(site, path, layout.image_of(full) + b"litter after the last block" * 1000, full)
    rescued(site, path, layout.image_of(full) + bytes(1), full, True)
    rescued(site, path, layout.image_of(box, 1)[:cut], model.Box(box.store[:32 * 512].ljust(len(box.store), b"\0"), box.record))
    return f"a file cut at a block: 32 kept, 0 lost, 68 gone; {tried} with blocks zeroed and damaged, 1 with litter, 2 full ones with bytes behind, 1 of layout 1"


def rescued_words(site, path, data):
    """What a rescue says."""
    path.write_bytes(data)
    done = site.run("rescue", "--image", path)
    same(f"rescue: exit code, with {done.err!r}", done.code, 0)
    beside(path, ".rescued").unlink()
    return done.out.decode()


def repeated(site):
    """Rescue again and again: names that are taken are counted up and left alone, beside the image and in its place."""
    path, box, taken = site.path("box.image"), box_of(), {}
    wanted = layout.image_of(model.Box(model.rescue(turned(box.store, 130), bytes(9))[1], box.record))
    for n, ending in enumerate([".rescued", ".damaged"] * 2 + [".rescued", ".damaged"]):
        number = n // 2 + 1
        data = with_store(box, turned(turned(box.store, 130), 120 + number))
        path.write_bytes(data)
        name = path.name + ending + (f".{number}" if number > 1 else "")
        done = site.run("rescue", "--image", path, *(["--in-place"] if ending == ".damaged" else []))
        hold(f"rescue {number} {ending}: {done}", done.code == 0 and f" {name} " in done.out.decode())
        taken[name] = data if ending == ".damaged" else wanted
        same("names", {name: site.path(name).read_bytes() for name in names_of(site)}, taken)
        same("the image", path.read_bytes(), wanted if ending == ".damaged" else data)
    return f"{len(taken)} rescues of one image: names counted up to 3, each file as it was"


def names_of(site):
    """What stands beside the image, but for its lock."""
    return {name.name for name in site.folder.iterdir()} - {"box.image", "box.image.lock", "key"}


CALLS = {"link": 1, "linkat": 1, "rename": 1, "fsync": 2, "unlink": 2, "write": 1, "fchown": 2, "fchmod": 1, "flock": 3}


def interrupted(site):
    """Rescue killed at each of its calls of the system, or with no room for a file: the image is the damaged one or the new one, nothing beside it is half an
    image but FILE.new, and the next rescue is as good as the first."""
    subprocess.run([TOP / "tests" / "need", "strace", "strace"], check=True)
    box = box_of(blocks=128)
    damaged = with_store(box, turned(box.store, 130))
    new = layout.image_of(model.Box(model.rescue(turned(box.store, 130), bytes(128))[1], box.record))
    path, kills = site.write("box.image", damaged), 0
    for words in [], ["--in-place"]:
        for call, when in ((call, when) for call, times in CALLS.items() for when in range(1, times + 1)):
            command = ["strace", "-o", "/dev/null", "-e", f"trace={call}", "-e", f"inject={call}:signal=KILL:when={when}"]
            done = subprocess.run([*command, site.program, "rescue", "--image", path, *words], capture_output=True, cwd=site.folder, check=False)
            kills += done.returncode != 0
            again(site, path, words, damaged, new)
        limited = subprocess.run(["sh", "-c", 'ulimit -f 20; exec "$@"', "sh", site.program, "rescue", "--image", path, *words], capture_output=True,
                                 cwd=site.folder, check=False)
        hold(f"no room for a file: {limited}", limited.returncode == 74 and limited.stderr)
        same("names after it", names_of(site), set())
        again(site, path, words, damaged, new)
    hold(f"{kills} kills", kills >= 12)
    return f"{kills} kills amid a rescue, and 2 with no room: the image is whole or as it was, and the next rescue makes it good"


def again(site, path, words, damaged, new):
    """After a rescue that may have been interrupted, a second; then all as it was before."""
    hold("the image is neither the old one nor the new one", path.read_bytes() in (damaged, new))
    for name in names_of(site) - {"box.image.new"}:
        hold(f"{name} is half an image", site.path(name).read_bytes() in (damaged, new))
    done = site.run("rescue", "--image", path, *words)
    same(f"the next rescue: exit code, with {done.err!r}", done.code, 0)
    kept = [name for name in names_of(site) if site.path(name).read_bytes() == (damaged if words else new)]
    hold(f"the image and what is beside it: {names_of(site)}", kept and path.read_bytes() == (new if words else damaged))
    for name in names_of(site):
        site.path(name).unlink()
    path.unlink()
    path.write_bytes(damaged)


def owner(site):
    """Root's rescue and reset keep the owner, the group and the mode of the image, and let the owner lock it."""
    if os.geteuid() != 0:
        return "not root, so nobody else can own the image: not tried"
    box = box_of()
    data, path = with_store(box, turned(box.store, 130)), site.path("box.image")
    for words, new in (["rescue"], ".rescued"), (["rescue", "--in-place"], ""), (["reset-table", "--key-file", "key"], ""):
        path.write_bytes(layout.image_of(box) if words[0] == "reset-table" else data)
        os.chown(path, 1234, 2345)
        path.chmod(0o640)
        beside(path, ".lock").unlink(missing_ok=True)
        done = site.run(*words, "--image", path)
        same(f"{words}: exit code, with {done.err!r}", done.code, 0)
        for file, mode in (beside(path, new), 0o640), (beside(path, ".lock"), 0o600):
            there = file.stat()
            same(f"owner, group and mode of {file.name} after {words}", (there.st_uid, there.st_gid, there.st_mode & 0o7777), (1234, 2345, mode))
    return "rescue beside and in place, and reset-table: owner, group and mode kept"


def reset_table(site):
    """`reset-table`: identity 1 has the key and may do everything, all others are gone; every reading and the cluster version stay. Not beside a server."""
    path, box = site.image(box_of()), box_of()
    site.write("new key", b"the new key\n")
    words = "reset-table", "--image", path, "--key-file", "new key"
    done = site.run(*words)
    same(f"reset-table: exit code, with {done.err!r}", done.code, 0)
    box.record = model.record_of(model.Table(-5, (model.Acl(1, b"the new key", (all_scope(),)),)))
    layout.same_image("after reset-table", path, box)
    server = site.serve(path)
    with Client(server.address, box, key=b"the new key") as client:
        for entry in model.entries_of(box.store):
            same("code of a GET", client.ask("GET", pair(entry.key)), 1)
    same("reset-table beside a server", site.run(*words).code, 74)
    layout.same_image("after reset-table beside a server", path, box)
    server.end()
    damaged = turned(path.read_bytes(), 3150)
    path.write_bytes(damaged)
    for what, code, words in ("a damaged image", 65, words), ("no image", 74, ("reset-table", "--image", "missing", "--key-file", "key")), \
            ("no key", 64, words[:3]), ("no name", 64, words[3:] + words[:1]), ("a long key", 65, ("reset-table", "--image", path, "--key-file", "box.image")):
        done = site.run(*words) if words[0] == "reset-table" else site.run("reset-table", *words[:2])
        hold(f"reset-table of {what}: {done}", done.code == code and done.err)
    same("the damaged image", path.read_bytes(), damaged)
    return "a table of 2 identities made new: 6 entries and the cluster version stay; beside a server and 5 times without what it needs it is refused"


TESTS = [rescue, rescue_ways, without_trace, repeated, interrupted, owner, reset_table]
