#!/usr/bin/env python3
"""The output that crates/program_store must write, computed from the table of document 01, "Blocks", alone."""
import zlib


def block(key, version, tag, value, algorithm):
    head = bytes([1, len(key), len(version), len(tag)]) + len(value).to_bytes(2, "big") + bytes([algorithm, 0])
    parts = key.ljust(64, b"\0") + version.ljust(16, b"\0") + tag.ljust(32, b"\0") + value.ljust(384, b"\0")
    body = head + parts + bytes(4)
    return body + sum(b * (place + 1) for place, b in enumerate(body)).to_bytes(4, "big")


def store_bytes(entries):
    return b"".join(block(key, *entries[key]) for key in sorted(entries)).ljust(65536, b"\0")


def entry(n):
    rising = bytes((n + j) % 256 for j in range(384))
    return rising[: n % 17], rising[: n % 33], rising[: n % 129 * 3], n % 7


def key(n):
    return bytes([107] * (n % 64) + [n % 256])


def main():
    entries = {}

    def show(name, n, answer, data):
        print(f"{name:5} {n} {answer} {zlib.adler32(data):08x}")

    def put(n):
        if key(n) not in entries and len(entries) == 128:
            return 1
        entries[key(n)] = entry(n)
        return 0

    def delete(n):
        return 0 if entries.pop(key(n), None) else 1

    def read(n, good=True):
        there = good and key(n) in entries
        show("read", n, 0 if there else 1 if good else 2, entries[key(n)][2] if there else b"")

    for i in range(128):
        n = i * 37 % 128
        answer = put(n)
        if i % 8 == 7:
            show("put", n, answer, store_bytes(entries))
    for name, n in (("full", 128), ("over", 261)):
        show(name, n, put(n), store_bytes(entries))
    for n in range(4, 130, 5):
        show("del", n, delete(n), store_bytes(entries))
    for n in range(201, 227):
        show("put", n, put(n), store_bytes(entries))
    for n in (5, 4, 108):
        read(n)
    show("again", 300, put(300), store_bytes(entries))
    read(5, good=False)  # byte 512 is 2 now


main()
