#!/usr/bin/env python3
"""Counts the places in crates/*/src that docs/DESIGN-PASS.md speaks of, by their text.

  tools/forms.py [--list] [COMMIT]   of the files as they stand, or of a commit; --list prints each place too

A count by text finds what has the look of a form; the page says of each place what it became or why it stays.
"""
import collections
import glob
import re
import subprocess
import sys

# For each point: a name, and what a line has to look like.
LINES = [
    ("1 an enum of the repository's own", r"^(pub )?enum \w+"),
    ("1 a flag in a struct", r"^ +(pub )?\w+: bool,"),
    ("1 a function that answers a bare number", r"^(pub )?fn [^)]*\) -> u(8|16|32|64)$|^\) -> u(8|16|32|64)$"),
    ("2 a helper made once for each width", r"^pub fn (wide|short)\("),
    ("3 a loop that is no for", r"^ *(while|loop)\b"),
    ("4 bytes of a number taken or put by hand", r"\* 16777216|/ 16777216|>> 24"),
    ("4 the library's arithmetic by its long name", r"std::num::\w+\("),
    ("4 an answer returned by a test of its own", r"^ *return (true|false);"),
    ("4 a flag named before it is tested", r"^ *let (has|ok|seen|closed|sequenced|identified|headed|keyed) = \w+(\.\w+)+;"),
    ("4 a field of a pattern that is named to be dropped", r"\b\w+: _\b"),
    ("7 a parameter that says which way to go", r"\b(reverse|temperature|fahrenheit|twice|force|inclusive): bool"),
]


def sources(commit):
    if commit is None:
        for path in sorted(glob.glob("crates/*/src/**/*.rt", recursive=True)):
            with open(path, encoding="utf-8") as file:
                yield path, file.read()
        return
    names = subprocess.run(["git", "ls-tree", "-r", "--name-only", commit, "crates"], capture_output=True, text=True, check=True).stdout
    for path in names.splitlines():
        if re.fullmatch(r"crates/[^/]+/src/.*\.rt", path):
            yield path, subprocess.run(["git", "show", f"{commit}:{path}"], capture_output=True, text=True, check=True).stdout


def facts(texts):
    """Each fact that a function requires, and where."""
    found = collections.defaultdict(list)
    for path, text in texts.items():
        for clause in re.finditer(r"requires(?: \w+)? \{(.*?)\}\n", text, re.S):
            for fact in clause.group(1).split("×"):
                fact = " ".join(fact.split())
                while fact.startswith("(") and fact.endswith(")"):
                    fact = fact[1:-1].strip()
                found[fact].append(f"{path}:{text[:clause.start()].count(chr(10)) + 1}")
    return {fact: places for fact, places in found.items() if 3 <= len(places)}


def together(texts):
    """Each pair of parameters that three or more functions take one behind the other, and where."""
    found = collections.defaultdict(list)
    for path, text in texts.items():
        for head in re.finditer(r"^ *(?:pub )?fn (\w+)\(([^)]*)\)", text, re.M):
            names = [" ".join(name.split()) for name in head.group(2).split(",") if name.strip()]
            for pair in zip(names, names[1:]):
                found[pair].append(f"{path}: {head.group(1)}")
    return {f"{a}, {b}": places for (a, b), places in found.items() if 3 <= len(places)}


def show(name, places, every):
    print(f"{len(places):5}  {name}")
    if every:
        for place in places:
            print(f"         {place}")


def main():
    every = "--list" in sys.argv
    commits = [word for word in sys.argv[1:] if word != "--list"]
    texts = dict(sources(commits[0] if commits else None))
    for name, pattern in LINES:
        places = [f"{path}:{place}: {line.strip()}" for path, text in texts.items()
                  for place, line in enumerate(text.splitlines(), 1) if re.search(pattern, line)]
        show(name, places, every)
    for name, found in (("5 a fact that three or more functions require", facts(texts)),
                        ("5 two parameters that three or more functions take together", together(texts))):
        show(name, [f"{len(places):3}  {fact}" for fact, places in sorted(found.items(), key=lambda item: -len(item[1]))], every)


if __name__ == "__main__":
    main()
