#!/usr/bin/env python3
"""What the program `program_permission` must print, taken from the tables of docs/VERDICTS.md.

    python3 tests/verdicts.py          writes it
    python3 tests/verdicts.py --check  says whether crates/program_permission/stdout is it

Each cell worked out by hand is also compared with the rule of document 01 and change request 2, computed here from the page's table of scopes.
"""

import pathlib
import re
import sys

TOP = pathlib.Path(__file__).resolve().parent.parent


def rows(page, heading):
    """The cells of the one table under a heading."""
    part = page.split("## " + heading + "\n", 1)[1].split("\n## ", 1)[0]
    lines = [line for line in part.splitlines() if line.startswith("|")]
    return [[cell.strip() for cell in line.strip("|").split("|")] for line in lines[2:]]


def quoted(text):
    return re.findall(r'"([^"]*)"', text)


def fits(scope, key):
    at, value = int(scope["offset"]), scope["value"]
    return value == "" or key[at:at + len(value)] == value


def verdict(scopes, asked, key, protected):
    """Document 01, "Who may"; without a key, any scope that is usable."""
    if not scopes:
        return "nobody"
    usable = [s for s in scopes if asked in s["permissions"] and (protected or s["tls"] == "no")]
    return "yes" if any(key is None or fits(s, key) for s in usable) else "no"


def main():
    page = (TOP / "docs" / "VERDICTS.md").read_text()
    table = {}
    for identity, _, permissions, offset, value, tls in rows(page, "The table of identities"):
        scope = {"permissions": permissions.split(", "), "offset": offset, "value": quoted(value)[0], "tls": tls}
        table.setdefault(identity, []).append(scope)
    out = []
    for identity, asked, key, plain, protected, _ in rows(page, "The verdicts"):
        names = quoted(key)
        for connection, cell in (("plain", plain), ("protected", protected)):
            rule = verdict(table.get(identity), asked, names[0] if names else None, connection == "protected")
            if rule != cell:
                sys.exit(f"{identity} {asked} {key} {connection}: the page says {cell}, the rule {rule}")
            out.append(" ".join([identity, asked] + [f'"{n}"' for n in names] + [connection, cell]) + "\n")
    text = "".join(out)
    if sys.argv[1:] == ["--check"]:
        same = (TOP / "crates" / "program_permission" / "stdout").read_text() == text
        sys.exit(0 if same else "crates/program_permission/stdout is not what docs/VERDICTS.md says")
    sys.stdout.write(text)


main()
