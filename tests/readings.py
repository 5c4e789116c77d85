#!/usr/bin/env python3
"""What crates/program_readings is run on (its stdin) and must write (its stdout).

  tests/readings.py           writes both files
  tests/readings.py --check   says whether they are as this script makes them

Values are exact fractions. An f32 is rounded to by its definition: of all patterns the one whose value is nearest, found by halving over the patterns in
order, at a tie the even one; from halfway past the largest on an infinity. Nothing here is taken from the program, and no float of Python's takes part.
The layout of lent readings is the one stated in crates/log_readings/specs/Lent.antt.
"""
import pathlib
import sys
from fractions import Fraction

CRATE = pathlib.Path(__file__).resolve().parent.parent / "crates" / "program_readings"
INFINITY = 0x7F800000
SIGN = 0x80000000

PATTERNS = [0x00000000, 0x80000000, 0x42000000, 0x43540000, 0x42C53333, 0xC3E5D5C3, 0x7F7FFFFF, 0xFF7FFFFF, 0x00000001, 0x80000001, 0x007FFFFF,
            0x00800000, 0x7FC00000, 0xFF800001, 0x7F800000, 0xFF800000, 0x41FFFFFF, 0x42000001, 0x7E4CCCCC, 0x7E4CCCCD, 0xFE4CCCCD, 0xC2200000,
            0x3DCCCCCD]
PORTIONS = [(0, 1), (1, 3), (2, 3), (127, 128), (128, 128), (1, 128), (0, 128), (1, 7), (5, 100), (99, 127)]


def value(pattern):
    """What a pattern without its sign stands for, as if the exponent had no end."""
    field, digits = pattern >> 23, pattern & 0x7FFFFF
    return Fraction(digits, 2**149) if field == 0 else Fraction(2**23 + digits, 2**23) * Fraction(2) ** (field - 127)


def magnitude(exact):
    """The pattern nearest to a fraction that is not negative."""
    low, high = 0, INFINITY
    if exact >= value(high):
        return high
    while high - low > 1:
        middle = (low + high) // 2
        low, high = (middle, high) if value(middle) <= exact else (low, middle)
    down, up = exact - value(low), value(high) - exact
    if down == up:
        return low if low % 2 == 0 else high
    return low if down < up else high


def rounded(exact, zero_sign):
    """IEEE 754: an exact zero takes the sign that the operation gives it, any other number its own."""
    return magnitude(abs(exact)) | (SIGN if exact < 0 or (exact == 0 and zero_sign) else 0)


def finite(bits):
    return bits % SIGN < INFINITY


def exact(bits):
    return value(bits % SIGN) * (-1 if bits & SIGN else 1)


def celsius(bits):
    """Document 02: subtract 32, times 5, over 9, each step rounded. x - x is +0; a product's or quotient's zero has its sign."""
    for step in [lambda b: rounded(exact(b) - 32, False), lambda b: rounded(exact(b) * 5, b & SIGN), lambda b: rounded(exact(b) / 9, b & SIGN)]:
        if finite(bits):
            bits = step(bits)
    return bits


def show(bits):
    return f"{bits:08x}" if finite(bits) else "omitted"


def of_decimal(text):
    return rounded(Fraction(text), text.startswith("-"))


def place(unit, name, bits, length=None):
    return bytes([unit, len(name) if length is None else length]) + name.ljust(16, b"?")[:16] + bits.to_bytes(4, "big")


NO_PLACE = place(9, b"", 0x7FC00000, 255)


def area(temperatures, utilizations, counts=None):
    """Lent readings. What does not count is filled with what would be refused if it did."""
    places = (temperatures + [NO_PLACE] * 4)[:4] + (utilizations + [NO_PLACE] * 2)[:2]
    return bytes(counts or [len(temperatures), len(utilizations)]) + b"".join(places)


F986, LARGEST, NAN = of_decimal("98.6"), 0x7F7FFFFF, 0x7FC00000
FULL = [(0, b"a", F986), (1, b"HDA temperature!", F986), (255, b"hot", LARGEST), (0, b"hot too", LARGEST)]
HALF = of_decimal("0.5")
ONE = [place(0, b"CPU", HALF)]

# bytes, and what is sent of each reading, or None where they are refused
AREAS = [
    (area([], []), []),
    (area([place(u, n, b) for u, n, b in FULL], [place(0, b"CPU", HALF), place(1, b"disk", INFINITY)]),
     [(n, celsius(b) if u else b) for u, n, b in FULL] + [(b"CPU", HALF), (b"disk", INFINITY)]),
    (area([place(0, b"cold", NAN)], ONE), [(b"cold", NAN), (b"CPU", HALF)]),
    (area([], ONE), [(b"CPU", HALF)]),
    (area([], ONE, [5, 1]), None),
    (area([place(0, b"a", 0)] * 4, ONE * 2, [4, 3]), None),
    (area([place(0, b"", 0)], []), None),
    (area([place(0, b"seventeen bytes!!", 0, 17)], []), None),
    (area([], [place(0, b"CPU", HALF), place(0, b"", 0)]), None),
    (area([], [place(0, b"CPU", HALF), place(0, b"x", 0, 255)]), None),
    # the last: one byte short
    (area([], ONE)[:133], None),
]


def lines():
    for bits in PATTERNS:
        yield f"{bits:08x} {show(bits)} {show(celsius(bits))} {show(bits)}"
    for text in ["98.6", "-459.67", "-0.0"]:
        yield show(celsius(of_decimal(text)))
    for text in ["-0.0", "37.0"]:
        yield show(of_decimal(text))
    # 0 / 0 and 1 / 0
    yield show(NAN)
    yield show(celsius(INFINITY))
    for used, blocks in PORTIONS:
        yield f"{used}/{blocks} {magnitude(Fraction(used, blocks)):08x}"
    swept = [celsius(i * 2654435769 % 2**32) for i in range(2000)]
    yield f"{sum(b if finite(b) else 1 for b in swept) % 2**32:08x}"
    for _, sent in AREAS:
        yield "refused" if sent is None else "good"
        for name, bits in sent or []:
            yield f"{name.decode()} {show(bits)}"


def main():
    files = {"stdin": b"".join(a for a, _ in AREAS), "stdout": "".join(line + "\n" for line in lines()).encode()}
    if sys.argv[1:] == ["--check"]:
        wrong = [name for name, data in files.items() if (CRATE / name).read_bytes() != data]
        if wrong:
            sys.exit(f"program_readings: {' and '.join(wrong)} not as tests/readings.py makes it")
        return
    for name, data in files.items():
        (CRATE / name).write_bytes(data)


if __name__ == "__main__":
    main()
