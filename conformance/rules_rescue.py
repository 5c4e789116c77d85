"""Change request 6: the rescue of a damaged store.

Most stores are written as words, a block each: `.` is a blank block; else its key, then a number where another entry has the same key, then what is wrong
with it: `!` its check, `?` another rule, its check right, `!?` both. What is reported and what the store becomes is written beside them, worked out by hand.
"""
import itertools

import model
from box import FILL, Call
from messages import KEYVALUE
from model import Entry, block_of
from rows import FULL, GOOD, NOT_FOUND, OK, REPORT_BAD, STORE_BAD, answer_call, entry, keyed, success, turned
from rules_lent import block_faults, summed

EVERY_PART = Entry(b"key1", b"v1", b"tag1", 1, b"value one")


def block(word):
    if word == ".":
        return model.BLANK
    name = word.rstrip("!?")
    good = block_of(Entry(name.rstrip("0123456789").encode(), b"v", b"t", 1, b"value of " + name.encode()))
    return {"": good, "!": turned(good, 120, 0), "?": summed(good, {7: 1}), "!?": turned(good, 7, 0)}[word[len(name):]]


def store(words):
    return b"".join(map(block, words.split()))


def rescued(report, after):
    """What is wanted of a rescue: the numbers that it reports, and the store."""
    wanted = bytes(map(int, report.split()))

    def held(got):
        if got["returned"] != 0:
            return f"returned {got['returned']}"
        if got["report"] != wanted:
            return f"reported {got['report'].hex(' ')}, wanted {wanted.hex(' ')}"
        return None if got["store"] == after else f"block {next(at for at in range(len(after)) if got['store'][at] != after[at]) // 512} is not as wanted"
    held.__doc__ = f"report {report if len(report) < 40 else report[:36] + ' ..'}"
    return held


def rescue_row(rows, what, before, report, after):
    rows.call(what, rescued(report, after), "rescue", store=before, report=FILL[:len(before) // 512])


def lengths(rows):
    rows.says("A wrong store length is refusal 2, then a wrong report length a new refusal 8")
    junk = bytes(n * 7 % 256 for n in range(131072))
    for length, blocks in ((0, None), (1, None), (511, None), (512, 1), (513, None), (1023, None), (1024, 2), (65024, 127), (65535, None), (65536, 128),
                           (65537, None), (66048, None), (131072, None)):
        for size in sorted({0, 1, 2, 3, 126, 127, 128, 129, 256, 257, 512, 1024, length // 512, length // 512 + 1, length // 512 + 256}):
            wanted = 2 if blocks is None else 0 if size == blocks else 8
            rows.call(f"store of {length}, report of {size}", wanted, "rescue", store=junk[:length], report=FILL[:size])
    shuffled, good = store("b a ."), store("a b .")
    for name, lent in ("shuffled", shuffled), ("good", good), ("blank", bytes(1536)):
        for size in 0, 1, 2, 4, 6, 512, 1536:
            rows.call(f"a {name} store of three, report of {size}", REPORT_BAD, "rescue", store=lent, report=FILL[:size])
        rows.call(f"a {name} store of three and a byte, report of 3", STORE_BAD, "rescue", store=lent + b"\0", report=FILL[:3])
        rows.call(f"a {name} store of three less a byte, report of 3", STORE_BAD, "rescue", store=lent[:-1], report=FILL[:3])
    for name, lent, report, wanted in (("both at NULL", b"", b"", 2), ("the store at NULL", b"", FILL[:1], 2), ("the report at NULL", shuffled, b"", 8),
                                       ("the report at NULL, a wrong store length", shuffled[1:], b"", 2)):
        rows.call(name, wanted, "rescue", store=lent, report=report, null=True)


def reports(rows):
    rows.says("Report bytes, by old place, the first that applies: 0 blank, 2 check wrong, 3 other rule broken, 4 key of an earlier kept block, 1 kept")
    for before, report, after in ((".", "0", "."), ("a", "1", "a"), ("a!", "2", "."), ("a?", "3", "."), ("a a2", "1 4", "a ."),
                                  (". a b! c? a2 d", "0 1 2 3 4 1", "a d . . . ."), ("d a2 c? b! a .", "1 1 3 2 4 0", "a2 d . . . .")):
        rescue_row(rows, before, store(before), report, store(after))
    rows.says("the first that applies: check wrong before other rule broken, both before the key of an earlier kept block")
    for before, report, after in (("a!?", "2", "."), ("a b!?", "1 2", "a ."), ("a a2!", "1 2", "a ."), ("a a2?", "1 3", "a ."), ("a a2!?", "1 2", "a ."),
                                  ("a a!", "1 2", "a ."), ("a a?", "1 3", "a ."), ("b a b2! b3? b4 .", "1 1 2 3 4 0", "a b . . . .")):
        rescue_row(rows, before, store(before), report, store(after))
    rows.says("the first that applies: 0 blank, and a blank block is 512 zero bytes")
    for place in (*range(0, 9), 71, 72, 87, 88, 119, 120, 255, 256, 503, 504, 507):
        rescue_row(rows, f"only byte {place} is 1", turned(bytes(1024), 512 + place, 0), "0 2", bytes(1024))
        rescue_row(rows, f"only byte {place} is 1, the check right", bytes(512) + summed(bytes(512), {place: 1}), "0 3", bytes(1024))
    for place in 508, 509, 510, 511:
        for bit in 0, 7:
            rescue_row(rows, f"only bit {bit} of byte {place} is set", turned(bytes(1024), 512 + place, bit), "0 2", bytes(1024))
    rows.says("of equal keys the earliest [is kept]; 4 key of an earlier kept block")
    for before, report, after in (("a a", "1 4", "a ."), ("a2 a", "1 4", "a2 ."), ("a a2 a3", "1 4 4", "a . ."), ("a3 a2 a", "1 4 4", "a3 . ."),
                                  ("a! a2", "2 1", "a2 ."), ("a? a2", "3 1", "a2 ."), ("a!? a2", "2 1", "a2 ."), ("a! a2 a3", "2 1 4", "a2 . ."),
                                  ("a? a2! a3 a4", "3 2 1 4", "a3 . . ."), ("a a2! a3", "1 2 4", "a . ."), ("a! a2? a3!", "2 3 2", ". . ."),
                                  ("b a b2 a2", "1 1 4 4", "a b . ."), ("c a b a2 c2", "1 1 1 4 4", "a b c . ."), ("b2 . b a", "1 0 4 1", "a b2 . ."),
                                  (". a . a2 . a3", "0 1 0 4 0 4", "a . . . . ."), ("b a a2 b2 a3", "1 1 4 4 4", "a b . . ."),
                                  ("a aa a2 aa2", "1 1 4 4", "a aa . ."), ("aa a aa2 a2", "1 1 4 4", "a aa . .")):
        rescue_row(rows, before, store(before), report, store(after))
    rescue_row(rows, "128 of one key", b"".join(block(f"a{n}") for n in range(128)), "1" + " 4" * 127, block("a0") + bytes(127 * 512))
    rescue_row(rows, "127 damaged, the last of their key not", block("a!") * 127 + block("a"), "2 " * 127 + "1", block("a") + bytes(127 * 512))


# Keys in byte order, a prefix before the longer key.
ASCENDING = [b"\0", b"\0\0", b"\0\1", b"\1", b"a", b"a\0", b"a\0\0", b"a\0b", b"a\1", b"aa", b"a" * 63, b"a" * 63 + b"\0", b"a" * 64, b"a" * 63 + b"b",
             b"ab", b"abcd\1", b"abce\0", b"b", b"\x7f", b"\x80", b"\xfe\xff", b"\xff", b"\xff\0", b"\xff" * 64]


def order(rows):
    rows.says("The result is a store in order holding exactly the kept entries")
    for words, after in (("a", "b", "c", "d"), "a b c d"), (("a", "b", "c", ".", "x!"), "a b c . ."), (("a", "b", "b", "."), "a b . ."):
        numbers = {".": "0", "x!": "2"}
        for some in sorted(set(itertools.permutations(words))):
            report = [numbers.get(word, "4" if word in some[:n] else "1") for n, word in enumerate(some)]
            rescue_row(rows, " ".join(some), store(" ".join(some)), " ".join(report), store(after))
    for before, report, after in ((". a", "0 1", "a ."), (". . b . a", "0 0 1 0 1", "a b . . ."), ("a . b", "1 0 1", "a b ."),
                                  ("b! a . c", "2 1 0 1", "a c . ."), ("x! y? z!? .", "2 3 2 0", ". . . ."), (". . .", "0 0 0", ". . ."), ("e d c b a .", "1 1 1 1 1 0", "a b c d e ."),
                                  ("b c d e a", "1 1 1 1 1", "a b c d e"), ("b a d c f! e", "1 1 1 1 2 1", "a b c d e .")):
        rescue_row(rows, before, store(before), report, store(after))
    ascending = [block_of(Entry(key, bytes([n]))) for n, key in enumerate(ASCENDING)]
    ones = " ".join("1" * len(ascending))
    for name, lent in (("as they are", ascending), ("backward", ascending[::-1]), ("the odd ones first", ascending[1::2] + ascending[::2]),
                       ("every fifth", [ascending[n * 5 % 24] for n in range(24)])):
        rescue_row(rows, f"keys that are prefixes, have zeros and high bytes: {name}", b"".join(lent), ones, b"".join(ascending))
    for n, (low, high) in enumerate(zip(ascending, ascending[1:])):
        rescue_row(rows, f"keys {ASCENDING[n + 1][:8]!r}, {ASCENDING[n][:8]!r}", high + low, "1 1", low + high)
    rows.says("a good store comes out as it was: every used block is kept, every blank one is blank")
    full = [FULL[at:at + 512] for at in range(0, 65536, 512)]
    for words, report in ("a b c . .", "1 1 1 0 0"), ("a b c", "1 1 1"), (". .", "0 0"):
        rescue_row(rows, words, store(words), report, store(words))
    for name, lent in (("as it is", full), ("backward", full[::-1]), ("every 37th", [full[n * 37 % 128] for n in range(128)]),
                       ("rotated", full[1:] + full[:1])):
        rescue_row(rows, f"128 used blocks, {name}", b"".join(lent), "1 " * 128, FULL)
    half = b"".join(full[n] if n % 2 else model.BLANK for n in range(128))
    rescue_row(rows, "every second of 128 blank", half, "0 1 " * 64, model.store_of(map(entry, range(1, 128, 2)), 65536))
    rows.says("a store that was rescued is rescued again: the kept are kept, and nothing changes")
    for before, report, after, again in (("c a! b . a a2", "1 2 1 0 1 4", "a b c . . .", "1 1 1 0 0 0"), ("x! y?", "2 3", ". .", "0 0"),
                                         ("b a", "1 1", "a b", "1 1")):
        rows.session(before, [rescuing] * 2, [rescued(report, store(after)), rescued(again, store(after))], store=store(before))


# A byte of EVERY_PART's block changed and the check made right again: what byte, what it becomes, and what is reported. A kept one stands between key0 and
# key2; where it doesn't, the order of the three is given: 0 is key0, 1 the changed one, 2 key2.
CHANGES = [
    ("the used byte", 0, (0, 2, 255), 3),
    ("the key's length, out of its limits", 1, (0, 65, 255), 3), ("the key's length, less", 1, (1, 3), 3), ("the key's length, more", 1, (5, 64), 1),
    ("the version's length, out of its limits", 2, (17, 255), 3), ("the version's length, less", 2, (0, 1), 3),
    ("the version's length, more", 2, (3, 16), 1),
    ("the tag's length, out of its limits", 3, (33, 255), 3), ("the tag's length, less", 3, (0, 3), 3), ("the tag's length, more", 3, (5, 32), 1),
    ("the value's length, out of its limits", 4, (2, 128, 255), 3), ("the value's length, 256 more", 4, (1,), 1),
    ("the value's length, less", 5, (0, 8), 3), ("the value's length, more", 5, (10, 255), 1),
    ("the algorithm", 6, (0, 2, 6), 1), ("the algorithm, out of its limits", 6, (7, 128, 255), 3), ("byte 7", 7, (1, 128, 255), 3),
    ("the key's first byte, higher", 8, (ord("l"), 255), (0, 2, 1)), ("the key's first byte, lower", 8, (0, ord("j")), (1, 0, 2)),
    ("a later byte of the key, higher", 10, (249,), (0, 2, 1)), ("what fills the key", 12, (1, 255), 3), ("the last that fills the key", 71, (1,), 3),
    ("the version", 72, (0, 255), 1), ("what fills the version", 74, (1,), 3), ("the last that fills the version", 87, (1,), 3),
    ("the tag", 88, (0, 255), 1), ("what fills the tag", 92, (1,), 3), ("the last that fills the tag", 119, (1,), 3),
    ("the value", 120, (0, 255), 1), ("the value's last", 128, (0, 255), 1), ("what fills the value", 129, (1,), 3),
    ("the last that fills the value", 503, (1,), 3), *((f"byte {place}", place, (1, 255), 3) for place in (504, 505, 506, 507))]


def bytes_of_a_block(rows):
    good, zero, two = block_of(EVERY_PART), block_of(Entry(b"key0")), block_of(Entry(b"key2"))
    lost = zero + two + bytes(1024)
    rows.says("2 check wrong: a byte of a block is changed")
    for place in range(512):
        rescue_row(rows, f"byte {place}", zero + turned(good, place, place % 8) + two + bytes(512), "1 2 1 0", lost)
    rows.says("A byte of a block is changed, and its check made right again: 3 other rule broken, or 1 kept as it is now")
    for name, place, values, wanted in CHANGES:
        for byte in values:
            changed = summed(good, {place: byte})
            kept = b"".join((zero, changed, two)[n] for n in (wanted if isinstance(wanted, tuple) else (0, 1, 2))) + bytes(512)
            rescue_row(rows, f"{name}, byte {place}, becomes {byte}", zero + changed + two + bytes(512), "1 3 1 0" if wanted == 3 else "1 1 1 0",
                       lost if wanted == 3 else kept)
    changed = summed(good, {11: ord("0")})
    rescue_row(rows, "the key becomes that of the block before", zero + changed + two + bytes(512), "1 4 1 0", lost)
    changed = summed(good, {11: ord("2")})
    rescue_row(rows, "the key becomes that of the block after", zero + changed + two + bytes(512), "1 1 4 0", zero + changed + bytes(1024))
    most = Entry(b"k" * 64, b"v" * 16, b"t" * 32, 6, b"w" * 384)
    rows.says("2 check wrong, 3 other rule broken: each rule of the table of bytes")
    for name, base, changes in block_faults(most):
        rescue_row(rows, name, summed(base, changes) + two, "3 1", two + bytes(512))
        rescue_row(rows, name + ", the sum left", summed(base, changes)[:508] + base[508:] + two, "2 1", two + bytes(512))
    for name, one in ("all as long as can be", most), ("all as short as can be", Entry(b"A")), ("zeros", Entry(bytes(64), bytes(16), bytes(32), 0, bytes(384))):
        rescue_row(rows, name, bytes(512) + block_of(one), "0 1", block_of(one) + bytes(512))


# ---- The chain: readings put, the store damaged, every call refused, the store rescued, the readings read back

KEYS = [b"timer07/0001", b"timer07/0002", b"timer07/0003"]


def put(n):
    return keyed("PUT", KEYS[n], b"reading %d" % n, f2=b"1", f5=b"sum", f6=1)


def damaged(change):
    """A call that is lent the store with something changed, and leaves it so."""
    return lambda state: answer_call(GOOD["NOOP"], **{**state, "store": change(state["store"])})


def finding(key):
    return lambda state: Call("find", store=state["store"], key=key)


def rescuing(state):
    return Call("rescue", store=state["store"], report=FILL[:len(state["store"]) // 512])


def chain(rows):
    rows.says("One bad block stops every call. Blocks that meet every block rule but order are kept: after the rescue the box answers again")
    blocks = [block_of(Entry(key, b"1", b"sum", 1, b"reading %d" % n)) for n, key in enumerate(KEYS)]
    for n in range(3):
        rest = [m for m in range(3) if m != n]
        numbers = ["2" if m == n else "1" for m in range(3)]
        steps = [(put(m), OK) for m in (2, 0, 1)]
        steps += [(damaged(lambda store, n=n: turned(store, 512 * n + 125, 3)), STORE_BAD), (GOOD["NOOP"], STORE_BAD)]
        steps += [(finding(key), 2) for key in KEYS]
        steps += [(rescuing, rescued(" ".join(numbers) + " 0 0", b"".join(blocks[m] for m in rest) + bytes(1536)))]
        steps += [(keyed("GET", KEYS[m]), success(value=b"reading %d" % m, key=KEYS[m], version=b"1", tag=b"sum") if m != n else NOT_FOUND) for m in range(3)]
        steps += [(finding(KEYS[m]), 1 if m == n else 0) for m in range(3)]
        steps += [(put(n), success(count=3)), (keyed("GET", KEYS[n]), success(value=b"reading %d" % n))]
        rows.session(f"a byte of the {n + 1}. reading is changed", *zip(*steps), store=bytes(2560))
    one, two, three = blocks
    for name, change, report, kept in (("the first two change places", lambda s: two + one + s[1024:], "1 1 1 0 0", (0, 1, 2)),
                                       ("a blank block between", lambda s: one + bytes(512) + two + three + bytes(512), "1 0 1 1 0", (0, 1, 2)),
                                       ("the second stands over the first", lambda s: two + s[512:], "1 4 1 0 0", (1, 2)),
                                       ("half of the third is lost", lambda s: s[:1280] + bytes(1280), "1 1 2 0 0", (0, 1)),
                                       ("byte 7 of the first, its check right", lambda s: summed(one, {7: 1}) + s[512:], "3 1 1 0 0", (1, 2)),
                                       ("every block", lambda s: turned(turned(turned(s, 8, 0), 600, 1), 1535, 2), "2 2 2 0 0", ())):
        after = b"".join(blocks[m] for m in kept).ljust(2560, b"\0")
        steps = [(put(m), OK) for m in range(3)]
        steps += [(damaged(change), STORE_BAD), (finding(KEYS[0]), 2), (rescuing, rescued(report, after))]
        steps += [(keyed("GET", KEYS[m]), success(value=b"reading %d" % m) if m in kept else NOT_FOUND) for m in range(3)]
        steps += [(put(m).at(*KEYVALUE, f4=b"1" if m in kept else None), success(count=len({*kept, *range(m + 1)}))) for m in range(3)]
        rows.session(name, *zip(*steps), store=bytes(2560))
