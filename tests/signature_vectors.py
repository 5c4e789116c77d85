#!/usr/bin/env python3
"""The outside vectors of the signature part, and the comparison with what the program program_signature prints.

  signature_vectors.py --stdout          prints what the program must print
  signature_vectors.py --compare FILE    says for each line of FILE what it was compared with; exit 1 where one differs

Published digests stand here as published (FIPS 180-4's examples, RFC 2202). The others are computed by Python's hashlib and hmac.
"""
import hashlib
import hmac
import sys

FIPS = "NIST's FIPS 180-4 examples"
RFC = "RFC 2202, section 3"
PYTHON = "Python's hashlib and hmac"
HOUSE = "document 01's limits"


def sha1(text):
    return hashlib.sha1(text).hexdigest()


def mac(key, text):
    return hmac.new(key, text, hashlib.sha1).hexdigest()


def vectors():
    """(name, what it must give, where that comes from), in the program's order."""
    yield "SHA-1 empty", "da39a3ee5e6b4b0d3255bfef95601890afd80709", FIPS
    yield "SHA-1 abc", "a9993e364706816aba3e25717850c26c9cd0d89d", FIPS
    yield "SHA-1 448 bits", "84983e441c3bd26ebaae4aa1f95129e5e54670f1", FIPS
    yield "SHA-1 896 bits", "a49b2446a02c645bf419f995b67091253a04a259", FIPS
    for n in 55, 56, 63, 64, 119, 120:
        yield f"SHA-1 {n} a", sha1(b"a" * n), PYTHON
    published = (
        "b617318655057264e28bc0b6fb378c8ef146be00",
        "effcdf6ae5eb2fa2d27416d5f184df9c259a7c79",
        "125d7342b9ac11cd91a39af48aa17b4f63f175d3",
        "4c9007f4026250c6bc8414f9bf50c86c2d7235da",
        "4c1a03424b55e07fe7f27be1d58bb9324a9a5a04",
        "aa4ae5e15272d00e95705637ce8a3b55ed402112",
        "e8e99d0f45237d786d6bbaa7965c7808bbff1a91",
    )
    for case, digest in enumerate(published, 1):
        yield f"HMAC RFC 2202 {case}", digest, RFC
    for n in 0, 1, 64, 65, 128:
        yield f"HMAC key {n}", mac(b"a" * n, b"text"), PYTHON
    yield "HMAC key 129", "key too long", HOUSE
    yield "SHA-1 1000000 a", "34aa973cd4c4daa4f61eeb2bdbad27316534016f", FIPS
    yield "HMAC text 1048576", mac(b"key", b"a" * 1048576), PYTHON
    yield "HMAC text 1048577", "text too long", HOUSE
    yield "HMAC key 129 text 1048577", "key too long", HOUSE
    yield "verify RFC 2202 1", "yes", RFC
    for change in "last byte changed", "first byte changed", "19 bytes", "21 bytes", "no bytes":
        yield f"verify {change}", "no", RFC + ", changed"
    yield "verify key 129", "no", HOUSE


def main():
    if sys.argv[1:] == ["--stdout"]:
        for name, expected, _ in vectors():
            print(f"{name}: {expected}")
        return 0
    if len(sys.argv) != 3 or sys.argv[1] != "--compare":
        sys.exit(__doc__)
    with open(sys.argv[2], encoding="ascii") as file:
        lines = file.read().splitlines()
    wanted = list(vectors())
    wrong = abs(len(lines) - len(wanted))
    for line, (name, expected, source) in zip(lines, wanted):
        same = line == f"{name}: {expected}"
        wrong += not same
        print(f"{'same' if same else 'DIFFERENT'}  {line}  (against {source}{'' if same else ': ' + expected})")
    print(f"{len(wanted)} vectors, {wrong} different")
    return 1 if wrong else 0


if __name__ == "__main__":
    sys.exit(main())
