#!/usr/bin/env python3
"""What crates/program_rescue is run on (its stdin) and must write (its stdout).

  tests/rescue.py           writes both files
  tests/rescue.py --check   says whether they are as this script makes them

Blocks, their checks and the rescue are worked out here from document 01's table of blocks and change request 6 alone; nothing is taken from the program.
Stores are damaged one byte at a time, at every kind of place of a block.
"""
import hashlib
import pathlib
import random
import re
import sys

CRATE = pathlib.Path(__file__).resolve().parent.parent / "crates" / "program_rescue"
BLOCK, MOST = 512, 128
BLANK = bytes(BLOCK)

# Where a part is held, how long it may be, and the byte that has the low digits of its length.
PARTS = {"key": (8, 64, 1), "version": (72, 16, 2), "tag": (88, 32, 3), "value": (120, 384, 5)}


def check_of(block):
    return sum(byte * (place + 1) for place, byte in enumerate(block[:508])).to_bytes(4, "big")


def checked(block):
    """The block with its check made right."""
    return bytes(block[:508]) + check_of(block)


def block(key, version=b"", tag=b"", value=b"", algorithm=0):
    head = bytes([1, len(key), len(version), len(tag), *len(value).to_bytes(2, "big"), algorithm, 0])
    return checked(head + key.ljust(64, b"\0") + version.ljust(16, b"\0") + tag.ljust(32, b"\0") + value.ljust(384, b"\0") + bytes(8))


def length_of(block, name):
    return block[4] * 256 + block[5] if name == "value" else block[PARTS[name][2]]


def filled_up(block, name):
    """The part is not too long, and zeros follow it."""
    (at, most, _), length = PARTS[name], length_of(block, name)
    return length <= most and not any(block[at + length:at + most])


def rules_kept(block):
    """Every rule of the table of blocks but the check's."""
    return (block[0] == 1 and block[1] >= 1 and block[6] <= 6 and not any([block[7], *block[504:508]])
            and all(filled_up(block, name) for name in PARTS))


def blocks_of(store):
    return [store[at:at + BLOCK] for at in range(0, len(store), BLOCK)]


def found(block, kept):
    """The report byte: the first that applies."""
    if block == BLANK:
        return 0
    if block[508:] != check_of(block):
        return 2
    if not rules_kept(block):
        return 3
    return 4 if block[8:8 + block[1]] in kept else 1


def rescued(store, report):
    """The number, and store and report afterwards."""
    if len(store) % BLOCK or not 1 <= len(store) // BLOCK <= MOST:
        return 2, store, report
    if len(report) != len(store) // BLOCK:
        return 8, store, report
    kept, made = {}, []
    for b in blocks_of(store):
        made.append(found(b, kept))
        if made[-1] == 1:
            kept[b[8:8 + b[1]]] = b
    return 0, b"".join(kept[key] for key in sorted(kept)).ljust(len(store), b"\0"), bytes(made)


class Play:
    """The events, the lent store as they leave it, and the lines to be written."""

    def __init__(self):
        self.events, self.lines, self.store, self.kept = [], [], b"", b""

    def overwrite(self, at, data):
        self.store = self.store[:at] + data + self.store[at + len(data):]
        self.events.append(f"bytes {at} {data.hex()}")

    def zeros(self, length):
        self.store = bytes(length)
        self.events.append(f"store {length}")

    def lend(self, blocks):
        """A store of these blocks, of which only the bytes that are not zero are sent; it is kept."""
        self.zeros(BLOCK * len(blocks))
        for place, b in enumerate(blocks):
            for run in re.finditer(rb"[^\0]+(\0{1,7}[^\0]+)*", b):
                self.overwrite(BLOCK * place + run.start(), run.group())
        assert self.store == b"".join(blocks)
        self.kept = self.store
        self.events.append("keep")

    def again(self):
        """The store that was kept."""
        self.store = self.kept
        self.events.append("again")

    def rescue(self, label, length=None):
        """The rescue, with a report of one byte for each block, or of another length."""
        report = bytes([255]) * (len(self.store) // BLOCK if length is None else length)
        self.events.append(f"rescue {len(report)} {label}")
        number, self.store, report = rescued(self.store, report)
        self.lines.append(f"{label}: {number} {report.hex()} {hashlib.sha1(self.store).hexdigest()}")
        return number, list(report)

    def damaged(self, place, at, data, label, right):
        """Bytes of a block changed in the store that was kept, with the block's check as it was or made right."""
        self.again()
        self.overwrite(BLOCK * place + at, data)
        if right:
            self.overwrite(BLOCK * place + 508, check_of(blocks_of(self.store)[place]))
        return self.rescue(f"{label}, check {'right' if right else 'as it was'}")[1][place]


def changed(block, at, turned=1):
    """A byte of a block with one bit turned, or more."""
    return at, bytes([block[at] ^ turned])


def damages(block):
    """A label, where, and bytes for every kind of place of a block but the check itself."""
    for byte in sorted({0, 1, 2} - {block[0]}):
        yield f"byte 0 is {byte}", 0, bytes([byte])
    for name, (at, most, place) in PARTS.items():
        length, width = length_of(block, name), 2 if name == "value" else 1
        for other in sorted({0, most, most + 1} - {length}):
            yield f"{name} length {other}", place + 1 - width, other.to_bytes(width, "big")
        if length > 0:
            yield f"{name}, its last byte", *changed(block, at + length - 1)
        if length < most:
            yield f"{name}, the first zero after it", *changed(block, at + length)
            yield f"{name}, the last zero after it", *changed(block, at + most - 1, 128)
    yield "value length, its high byte 2", 4, b"\2"
    for algorithm in sorted({0, 6, 7} - {block[6]}):
        yield f"algorithm {algorithm}", 6, bytes([algorithm])
    for at in 7, 504, 505, 506, 507:
        yield f"byte {at}", *changed(block, at)


def each_place(play, place, name):
    """Every damage to the block at a place, with its check as it was and made right, and every byte of the check."""
    b = blocks_of(play.kept)[place]
    for label, at, data in damages(b):
        assert play.damaged(place, at, data, f"{name}, {label}", False) == 2
        play.damaged(place, at, data, f"{name}, {label}", True)
    for at in 508, 509, 510, 511:
        assert play.damaged(place, *changed(b, at), f"{name}, byte {at}", False) == 2


def rising(first, length):
    return bytes((first + n) % 256 for n in range(length))


SHORT = block(b"a")
MIDDLE = block(b"reading 09:30:00", b"12", rising(200, 4), b"WBGT 28.4 C", 5)
LONGEST = block(rising(100, 64), rising(1, 16), rising(7, 32), rising(255, 384), 6)
# Blocks in key order: prefixes before longer keys, a zero byte last, keys of 1, 2, 16 and 64 bytes, values of 0, 1 and 384.
GOOD = [SHORT, block(b"a\0", value=b"0"), block(b"ab", b"1", algorithm=1), LONGEST, MIDDLE, block(b"reading 09:30:00\0", tag=b"crc!", algorithm=6),
        block(b"\xff", rising(9, 16), value=rising(3, 384), algorithm=2)]


def good_stores(play):
    for name, blocks in ("no blank block", GOOD), ("blank blocks behind", GOOD + [BLANK] * 3):
        play.lend(blocks)
        assert play.rescue(f"in order, {name}") == (0, [1] * len(GOOD) + [0] * (len(blocks) - len(GOOD))) and play.store == play.kept


def one_byte(play):
    play.lend([SHORT, GOOD[6], BLANK, MIDDLE, BLANK, GOOD[2], LONGEST])
    for place, name in (3, "a block"), (2, "a blank block"), (0, "the first, shortest"), (6, "the last, longest"):
        each_place(play, place, name)
    # what a sum can't show: 1, -2 and 1 in a row
    at = BLOCK * 3 + 124
    play.again()
    play.overwrite(at, bytes((b + d) % 256 for b, d in zip(play.store[at:at + 3], (1, -2, 1))))
    assert play.rescue("a block, three bytes of its value under the same check")[1][3] == 1


def small(n):
    """The n-th of many small entries."""
    return block(b"%c%03d" % (97 + n % 3, n), value=b"%d" % n if n % 4 == 0 else b"", algorithm=n % 7)


def in_order(blocks):
    return sorted(blocks, key=lambda b: b[8:8 + b[1]])


def orders(play, chance):
    few, all_ = in_order(small(n) for n in range(9)), in_order(small(n) for n in range(MOST))
    play.lend(few)
    play.rescue("nine blocks in order")
    in_place = play.store
    for name, blocks in ("backwards", few[::-1]), ("the last first", few[-1:] + few[:-1]), ("the first last", few[1:] + few[:1]), (
            "two exchanged", few[:3] + [few[4], few[3]] + few[5:]), ("every second first", few[1::2] + few[::2]):
        play.lend(blocks)
        assert play.rescue(f"nine blocks, {name}")[1] == [1] * 9 and play.store == in_place
    last = [block(b"k" * 63)] + [block(b"k" * 63 + bytes([n])) for n in (0, 1, 127, 128, 255)]
    for name, blocks in ("keys of all lengths", GOOD), ("keys that differ in their last byte", last):
        play.lend(blocks[::-1])
        assert play.rescue(f"{name}, backwards")[1] == [1] * len(blocks) and play.store == b"".join(blocks)
    shuffled = sorted(all_, key=lambda _: chance.random())
    for name, blocks in ("in order", all_), ("backwards", all_[::-1]), ("shuffled", shuffled):
        play.lend(blocks)
        assert play.rescue(f"128 blocks, {name}")[1] == [1] * MOST and play.store == b"".join(all_)
    play.again()
    play.overwrite(BLOCK * 77 + 9, b"?")
    assert play.rescue("128 blocks, shuffled, one damaged")[1].count(1) == MOST - 1
    assert play.rescue("128 blocks, shuffled, one damaged, once more")[1] == [1] * (MOST - 1) + [0]


def equal_keys(play):
    one, two, three = (block(b"same", b"%d" % n, value=b"value %d" % n) for n in (1, 2, 3))
    less, more = block(b"sam"), block(b"same\0")
    broken = checked(one[:7] + b"\1" + one[8:])
    wrong = one[:130] + b"\1" + one[131:]
    for name, blocks, report in (
            ("twice", [one, two], [1, 4]), ("three times", [one, two, three], [1, 4, 4]), ("three times, backwards", [three, two, one], [1, 4, 4]),
            ("the same block twice", [one, one], [1, 4]), ("the first's check wrong", [wrong, two, three], [2, 1, 4]),
            ("the first's rule broken", [broken, two, three], [3, 1, 4]), ("the second's check wrong", [three, wrong, two], [1, 2, 4]),
            ("beside blank blocks", [BLANK, one, BLANK, BLANK, two, BLANK], [0, 1, 0, 0, 4, 0]),
            ("among longer and shorter", [more, two, less, one, more, less], [1, 1, 1, 4, 4, 4]),
            ("in the last place", [less, more, one, BLANK, one], [1, 1, 1, 0, 4])):
        play.lend(blocks)
        assert play.rescue(f"equal keys, {name}")[1] == report
        play.rescue(f"equal keys, {name}, once more")


def alike(play):
    """Stores whose blocks are all of one kind, or of one block."""
    broken, wrong = checked(b"\2" + MIDDLE[1:]), MIDDLE[:511] + bytes([MIDDLE[511] ^ 1])
    for name, b, byte in ("blank", BLANK, 0), ("with a wrong check", wrong, 2), ("with a rule broken", broken, 3), ("sound", MIDDLE, 1):
        for count in 1, 5:
            play.lend([b] * count)
            assert play.rescue(f"{count} {'block' if count == 1 else 'blocks'} {name}")[1] == [byte] + [4 if byte == 1 else byte] * (count - 1)
    play.lend([BLANK] * (MOST - 1) + [MIDDLE])
    play.rescue("128 blocks, blank but the last")


def any_block(below):
    """One of a few small entries, sound or with a byte changed, or a blank block."""
    b, at = small(below(8)), below(508)
    bad = b[:at] + bytes([b[at] ^ (1 + below(255))]) + b[at + 1:]
    return [BLANK, bad, checked(bad), b, b][below(5)]


def mixtures(play, chance):
    """Every kind of block beside every other, and each store twice in a row."""
    for n in range(6):
        blocks = [any_block(lambda most: int(chance.random() * most)) for _ in range(10 + 2 * n)]
        play.lend(blocks)
        kept = play.rescue(f"mixture {n}")[1].count(1)
        once = play.store
        assert play.rescue(f"mixture {n}, once more")[1] == [1] * kept + [0] * (len(blocks) - kept) and play.store == once


def lengths(play):
    wrong = bytes([MIDDLE[0], 99]) + MIDDLE[2:]
    play.lend([MIDDLE, wrong, SHORT])
    for length in 2, 4, 0, 255:
        assert play.rescue(f"three blocks, a report of {length}", length)[0] == 8 and play.store == play.kept
    assert play.rescue("three blocks, a report of 3", 3)[0] == 0
    for length in 0, 1, 511, 513, 1023, 1025, BLOCK * MOST - 1, BLOCK * MOST + 1, BLOCK * (MOST + 1):
        play.zeros(length)
        if length:
            play.overwrite(0, b"\1")
        for report in sorted({length // BLOCK, (length + BLOCK - 1) // BLOCK, 200}):
            assert play.rescue(f"a store of {length} bytes, a report of {report}", report)[0] == 2
    play.zeros(BLOCK * MOST)
    for length in MOST - 1, MOST, MOST + 1:
        assert play.rescue(f"128 blocks blank, a report of {length}", length)[0] == (0 if length == MOST else 8)


def made():
    play, chance = Play(), random.Random(6)
    good_stores(play)
    one_byte(play)
    orders(play, chance)
    equal_keys(play)
    alike(play)
    mixtures(play, chance)
    lengths(play)
    return {"stdin": play.events, "stdout": play.lines}


def main():
    files = {name: "".join(line + "\n" for line in lines).encode() for name, lines in made().items()}
    if sys.argv[1:] == ["--check"]:
        wrong = [name for name, data in files.items() if (CRATE / name).read_bytes() != data]
        if wrong:
            sys.exit(f"program_rescue: {' and '.join(wrong)} not as tests/rescue.py makes it")
        return
    for name, data in files.items():
        (CRATE / name).write_bytes(data)


if __name__ == "__main__":
    main()
