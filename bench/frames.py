#!/usr/bin/env python3
"""frames.py LIBRARY: the stack frame of each function of SHA-1 and HMAC, without its return address, as the compiler made it: the bytes that it pushes,
those that it reserves, and those that it uses below them (a function that calls none may use 128). Read off the library's code with objdump.

A function that is not listed was inlined; "has round 0" is said of the one that the rounds stand in.
"""
import re
import subprocess
import sys

ROUND_0 = "0x5a827999"


def functions(library):
    """Each function of a digest with its instructions."""
    text = subprocess.run(["objdump", "-d", "-M", "intel", "--no-show-raw-insn", library], check=True, capture_output=True, text=True).stdout
    for name, body in re.findall(r"^[0-9a-f]+ <(.+)>:\n((?:.+\n)*)", text, re.M):
        if re.match("signature_|ridgeladle_(sha1|hmac)$", name):
            yield name, [line.split("\t", 1)[1] for line in body.splitlines() if "\t" in line]


def frame(code):
    """The bytes pushed and reserved by the first instructions that move the stack, and those used below."""
    pushed = reserved = 0
    for line in code:
        if moved := re.match(r"(sub|add) +rsp,(0x[0-9a-f]+)", line):
            n = int(moved[2], 16)
            reserved = n if moved[1] == "sub" else 2**64 - n  # 128 is reserved by adding -128, which is shorter
            break
        if re.match(r"pop|call|ret", line):
            break
        pushed += 8 * line.startswith("push")
    if any(line.startswith("call") for line in code):
        return pushed, reserved, 0
    below = re.findall(r"\[rsp(?:\+\w+\*\d)?-(0x[0-9a-f]+)", "\n".join(code))
    return pushed, reserved, min(128, max([int(n, 16) for n in below], default=0))


def main():
    found = list(functions(sys.argv[1]))
    for name, code in found:
        pushed, reserved, below = frame(code)
        rounds = ", has round 0" if any(ROUND_0 in line for line in code) else ""
        print(f"frame of {name}: {pushed + reserved + below} bytes ({pushed} pushed, {reserved} reserved, {below} below){rounds}")
    return 0 if found else 1


if __name__ == "__main__":
    sys.exit(main())
