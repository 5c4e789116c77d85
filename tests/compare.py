#!/usr/bin/env python3
"""compare.py PROGRAM SOURCE: proves and runs crates/PROGRAM and says of each line that it writes whether it is as expected, and against what.

The expected lines are those of crates/PROGRAM/stdout, which the scripts beside this one make (tests/expected holds them to it).
"""
import pathlib
import subprocess
import sys

TOP = pathlib.Path(__file__).resolve().parent.parent


def main():
    program, source = sys.argv[1:]
    crate = TOP / "crates" / program
    given = (crate / "stdin").read_bytes() if (crate / "stdin").exists() else b""
    run = subprocess.run(["rt", "run"], cwd=crate, input=given, stdout=subprocess.PIPE, check=True)
    lines = run.stdout.decode().splitlines()
    wanted = (crate / "stdout").read_text().splitlines()
    wrong = abs(len(lines) - len(wanted))
    for line, expected in zip(lines, wanted):
        same = line == expected
        wrong += not same
        print(f"{'same' if same else 'DIFFERENT'}  {line}" + ("" if same else f"  (expected {expected})"))
    print(f"{program}: {len(wanted)} lines compared with {source}, {wrong} different")
    return 1 if wrong else 0


if __name__ == "__main__":
    sys.exit(main())
