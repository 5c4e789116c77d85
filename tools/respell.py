#!/usr/bin/env python3
"""Respells the names that the repository's own antt files declare, by the rules "Names" of Rattle's CONTRACT_STYLE.md.

  tools/respell.py [--dry] [FOLDER]   in the repository FOLDER, or in the one that it is called in; --dry writes nothing

A value is in snake case, a fact or a type in upper camel case; a dash joins two names of a law, or a type to a name.
A second run changes nothing. It prints what it renamed, what it left and why, and what might fall together.
"""
import bisect
import collections
import glob
import os
import re
import sys

# Names whose plain respelling would fall together with another, or reads badly, and what they become instead.
SPECIAL = {
    "capacity-tree": "capacity_sent",       # a constant of one file, which uses capacityTree too
    "limits-tree": "limits_sent",
}
# Words of the protocol in prose, which docs/documents has in other forms: outside backticks a comment keeps them.
PROSE = {"keyValues", "startInclusive", "endInclusive"}
# Names that keep their spelling, each with why.
KEEP = {}
# antt's own words: no name becomes one of them.
WORDS = set("""data record open use module where let in elim as abbrev unfoldable unfolding opaque pub mod ruleset search simp rw cc omega grind
hlevel assumption first_of infix infixl infixr tt absurd Type Unit arith rules""".split())

TOKEN = re.compile(r"[^\s(){}.;,@\"«»\[\]\\`]+")
RUST_TOKEN = re.compile(r"[^\s(){}.;,@\"«»\[\]\\`&!:<>=|#?/*+]+")
DECLARED = re.compile(r"((?:abbrev |unfoldable |pub |opaque )*)([^\s:(){}.;,@\"«»\[\]\\`]+)((?:\s+[({][^)}]*[)}])*)\s+:(?=\s|$)")
GROUP = re.compile(r"((?:abbrev |unfoldable |pub |opaque )*)(data|record)\s+([^\s({:]+)")
NOT_A_NAME = re.compile(r"((abbrev |pub )*use|(pub )?mod|unfolding|infix\w*|open)\b")


def read(path):
    with open(path, encoding="utf-8", newline="") as file:
        return file.read()


def write(path, text):
    with open(path, "w", encoding="utf-8", newline="") as file:
        file.write(text)


def files(*patterns):
    return sorted(path for pattern in patterns for path in glob.glob(pattern, recursive=True) if "/out/" not in path and os.path.isfile(path))


# ---- what is declared

Name = collections.namedtuple("Name", "path line name kind public type owner")


def indent(line):
    return len(line) - len(line.lstrip(" "))


def declarations(path, text):
    """Each name that the file declares at its top or in a `module .. where`: definitions, laws, types, constructors and fields."""
    found, modules, group, lines = [], [], None, text.split("\n")
    for place, line in enumerate(lines):
        words = line.lstrip(" ")
        depth = indent(line)
        if not words or words.startswith("--"):
            continue
        if group and depth > group[0]:
            member = depth == group[0] + 2 and re.match(r"(pub )?((?:[^\s(){}.;,@\"«»\[\]\\`:]+\s+)*?[^\s(){}.;,@\"«»\[\]\\`:]+)((?:\s+[({][^)}]*[)}])*)\s+:(?=\s|$)", words)
            if member:
                kind = "field" if group[1] == "record" else "constructor"
                for one in member[2].split():
                    found.append(Name(path, place, one, kind, True, words[member.end():], group[2]))
            continue
        group = None
        while modules and depth <= modules[-1]:
            modules.pop()
        if depth != (modules[-1] + 2 if modules else 0) or NOT_A_NAME.match(words):
            continue
        if re.match(r"(pub )?module ", words):
            modules.append(depth)
            continue
        named = GROUP.match(words)
        if named:
            found.append(Name(path, place, named[3], named[2], "pub" in named[1], words[named.end():], None))
            group = (depth, named[2], (path, named[3]))
            continue
        named = DECLARED.match(words)
        if named:
            rest, after = [words[named.end():]], place + 1
            while after < len(lines) and lines[after].strip() and indent(lines[after]) > depth:
                rest.append(lines[after].strip())
                after += 1
            kind = "definition" if re.search("abbrev|unfoldable", named[1]) else "law"
            found.append(Name(path, place, named[2], kind, "pub" in named[1], " ".join(rest).strip(), None))
    return found


def is_fact(type_):
    """Whether what has this type is itself a type: its result is `Type 0`."""
    return bool(re.search(r"(^|→ )Type (\d|ℓ|\(.*\))\s*$", type_))


# ---- how a name is spelled

def snake(word):
    """A lower-case word with capitals inside, in snake case: `connectionID` is `connection_id`, `mapO` is `map_o`."""
    word = re.sub(r"([A-Z]+)([A-Z][a-z])", r"\1_\2", word)
    word = re.sub(r"([a-z0-9])([A-Z])", r"\1_\2", word)
    return word.lower()


def shouts(word):
    return word.upper() == word and re.search("[A-Z]", word) is not None


def camel_value(word):
    return re.match(r"[a-z]", word) is not None and re.search(r"[A-Z]", word) is not None


def spelled(name, kind, type_, answers):
    """The name as the rules spell it; answers says that it stands in a function's own proof, whose dashes echo Rattle's names."""
    if name in SPECIAL:
        return SPECIAL[name]
    if name in KEEP:
        return name
    name = name.replace("′", "'")
    if kind in ("data", "record"):
        return name
    parts = name.split("-")
    if "" in parts or not all(re.match(r"[A-Za-z0-9_']+$", part) for part in parts):
        return "-".join(snake(part) if camel_value(part) else part for part in parts)
    if kind in ("definition", "law") and len(parts) == 1 and re.match("[a-z]", name) and is_fact(type_):
        return "".join(part[:1].upper() + part[1:] for part in re.split("_", name) if part)
    small = [snake(part) if camel_value(part) else part for part in parts]
    if len(parts) == 1 or kind == "law" or answers:
        return "-".join(small)
    if shouts(name):
        return "_".join(parts)
    if kind == "definition" and re.match("[A-Z]", parts[0]):
        return parts[0] + "-" + "_".join(snake(part) for part in parts[1:])
    return "_".join(snake(part) for part in small)


# ---- where a name is seen

def module_of(path):
    """crates/C/specs/M.antt is Rattle.C.specs.M."""
    parts = path[:-len(".antt")].split("/")
    return ".".join(["Rattle"] + parts[1:])


USE = re.compile(r"^[ ]*(?:ghost )?(pub )?use\s+([^\s{;]+?)(?:\.\{([^}]*)\}|\s+as\s+([^\s;]+))?\s*;?\s*$", re.M)


def uses(text, crate):
    """(path of the module, names or None, alias, public) of each `use`."""
    for found in USE.finditer(text):
        path = found[2].replace("·specs.specs", ".specs").replace("·", ".")
        if path.startswith("crate."):
            path = "Rattle." + crate + path[len("crate"):]
        names = None if found[3] is None else [name.strip().split(" as ")[0].strip() for name in found[3].split(",") if name.strip()]
        yield path, names, found[4], bool(found[1])


def locals_of(text):
    """The names in camel case that a file gives itself: `use M.{x as aB}`, and the functions of a `where`."""
    found = re.findall(r"(?m)^ *(?:ghost )?use [^\n]*?\bas ([a-z][^\s,{}.;]*)(?=[,}\s])", text) + re.findall(r"(?m)^ +([a-z][^\s:(){}.;,]*) :(?= |$)", text)
    for line in re.findall(r"(?m)^ *(?:ghost )?use [^\n]*\{[^\n]*", text):
        found += re.findall(r"\bas ([a-z][^\s,{}.;]*)", line)
    return {name: "-".join(snake(part) if camel_value(part) else part for part in name.split("-"))
            for name in found if any(camel_value(part) for part in name.split("-"))}


def normal(name):
    """A spelling that has the same letters in whatever case, with dashes or without."""
    return re.sub("[-_]", "_", "-".join(snake(part) if camel_value(part) else part for part in name.split("-"))).lower()


def rust_words():
    words = set()
    for path in files("crates/*/src/**/*.rt"):
        words.update(re.findall(r"\w+", read(path)))
    return words


class Renaming:
    """What is renamed everywhere, behind a dot, and in one module's files alone."""

    def __init__(self):
        self.anywhere = {}                                  # camelCase: a spelling that nothing else has
        self.fields = {}                                    # dashed fields and constructors
        self.owned = collections.defaultdict(dict)          # by module: dashed definitions and facts
        self.exported = collections.defaultdict(dict)
        self.names = []                                     # (Name, new)
        self.left = []

    def collect(self):
        every = []
        for path in files("crates/*/specs/**/*.antt", "crates/*/proofs/**/*.antt"):
            text = read(path)
            answers = "/proofs/" in path and (path.endswith("/Proof.antt") or path.endswith("/Answers.antt") or path.endswith("/Invariants.antt"))
            for name in declarations(path, text):
                every.append((name, answers))
        self.declared = every
        for name, answers in every:
            new = spelled(name.name, name.kind, name.type, answers)
            if new == name.name:
                continue
            if new in WORDS:
                self.left.append((name, f"{new} is a word of antt"))
                continue
            self.names.append((name, new))
            parts = re.split("[-]", name.name)
            if name.kind in ("field", "constructor") and "-" in name.name:
                self.fields[name.name] = new
                if any(camel_value(part) for part in parts):
                    self.anywhere[name.name] = new
                if name.kind == "constructor":
                    self.owned[module_of(name.path)][name.name] = new
                    self.exported[module_of(name.path)][name.name] = new
            elif any(camel_value(part) for part in parts) and not new[0].isupper() or re.match(r"[A-Z]\w*-", name.name) and not shouts(name.name):
                self.anywhere[name.name] = new
            else:
                self.owned[module_of(name.path)][name.name] = new
                if name.public:
                    self.exported[module_of(name.path)][name.name] = new
        self.lemmas()
        # what a file makes public again
        for _ in range(3):
            for path in files("crates/*/specs/**/*.antt", "crates/*/proofs/**/*.antt"):
                for module, names, alias, public in uses(read(path), path.split("/")[1]):
                    if public and names:
                        for name in names:
                            if name in self.exported.get(module, {}):
                                self.exported[module_of(path)][name] = self.exported[module][name]
        rust = rust_words()
        self.steps = {name for name in self.fields if name.replace("-", "_") in rust}

    def lemmas(self):
        """A lemma that would have its function's name gets `_lem`: where the function's new spelling meets the lemma's in the lemma's own file."""
        tokens = {}
        for name, answers in self.declared:
            if name.kind != "law" or is_fact(name.type):
                continue
            path = name.path
            if path not in tokens:
                tokens[path] = {self.anywhere[token]: token for token in TOKEN.findall(read(path)) if token in self.anywhere}
            old = tokens[path].get(name.name)
            if old and old != name.name:
                new = name.name + "_lem"
                self.names.append((name, new))
                self.owned[module_of(path)][name.name] = new
                if name.public:
                    self.exported[module_of(path)][name.name] = new

    def scope(self, path, text):
        """(the names that the file sees bare, and those behind each alias)."""
        bare, behind = locals_of(text), {"": {alias for _, _, alias, _ in uses(text, path.split("/")[1]) if alias}}
        if path.endswith(".antt"):
            bare.update(self.owned.get(module_of(path), {}))
        for module, names, alias, public in uses(text, path.split("/")[1]):
            if names is not None:
                for name in names:
                    if name in self.exported.get(module, {}):
                        bare[name] = self.exported[module][name]
            elif module in self.exported:
                behind[alias or module.split(".")[-1]] = self.exported[module]
        return bare, behind


# ---- the text of a file in pieces

def pieces(text, rust):
    """(kind, start, end) of the code, the comments and the strings, in their order."""
    out, start, i, n = [], 0, 0, len(text)

    def cut(kind, a, b):
        nonlocal start
        if start < a:
            out.append(("code", start, a))
        out.append((kind, a, b))
        start = b

    while i < n:
        c = text[i]
        if rust and text.startswith("//", i) or not rust and text.startswith("--", i) and (i == 0 or text[i - 1] in " \n\t(") and (i + 2 == n or text[i + 2] in " \n-\t"):
            end = text.find("\n", i)
            end = n if end < 0 else end
            cut("comment", i, end)
            i = end
        elif rust and text.startswith("/*", i):
            end = text.find("*/", i)
            end = n if end < 0 else end + 2
            cut("comment", i, end)
            i = end
        elif rust and c == "r" and re.match(r'r#*"', text[i:i + 8]) and (i == 0 or not (text[i - 1].isalnum() and text[i - 1] != "b" or text[i - 1] == "_")):
            marks = re.match(r"r(#*)", text[i:])[1]
            end = text.find('"' + marks, i + 2 + len(marks))
            end = n if end < 0 else end + 1 + len(marks)
            cut("string", i, end)
            i = end
        elif c == '"':
            end = i + 1
            while end < n and text[end] != '"':
                end += 2 if text[end] == "\\" else 1
            cut("string", i, min(end + 1, n))
            i = min(end + 1, n)
        elif rust and c == "'" and not (i and (text[i - 1].isalnum() or text[i - 1] in "_'")) and re.match(r"'(\\[^\n]{1,8}?|[^\\\n])'", text[i:i + 12]):
            end = i + re.match(r"'(\\[^\n]{1,8}?|[^\\\n])'", text[i:i + 12]).end()
            cut("string", i, end)
            i = end
        else:
            i += 1
    if start < n:
        out.append(("code", start, n))
    return out


def records(text):
    """The places of `record {..}` and `record r {..}`, as (start, end) of what stands between the brackets, and of the bodies of `record R : .. where`."""
    spans = []
    for found in re.finditer(r"\brecord\b[^{}\n:=]*\{|\bopen\b[^{}\n:=]*\buse\b[^{}\n:=]*\{", text):
        depth, i = 1, found.end()
        while i < len(text) and depth:
            depth += (text[i] == "{") - (text[i] == "}")
            i += 1
        spans.append((found.end(), i))
    return spans


class Respelled:
    def __init__(self, renaming, documents):
        self.renaming, self.documents = renaming, documents
        self.targets, self.changed = {}, {}
        self.ambiguous, self.caught, self.unsure = collections.Counter(), collections.Counter(), set()
        self.known = {name.name for name, _ in renaming.declared}
        self.spellings = collections.defaultdict(set)
        to = {id(name): new for name, new in renaming.names}
        for name, _ in renaming.declared:
            self.spellings[normal(name.name)].add((to.get(id(name), name.name), name.kind == "law"))

    def new_name(self, text, span, token, scope, in_record, bodies, tie):
        """What stands for the token at the place, or None."""
        r, (bare, behind) = self.renaming, scope
        a, b = span
        before = re.search(r"([^\s(){}.;,@\"«»\[\]\\`]+)\.$", text[max(0, a - 120):a])
        dotted = a > 0 and text[a - 1] == "."
        if token in r.anywhere:
            return r.anywhere[token]
        if dotted and before and before[1] in behind:
            return behind[before[1]].get(token)
        if dotted and before and before[1] in behind[""]:
            return None
        if token in r.fields:
            if dotted:
                if token in r.steps and tie and (text[b:b + 1] == "." or before and re.match("args|before", before[1])):
                    self.ambiguous[token] += 1
                    return None
                return r.fields[token]
            if in_record and re.match(r"\s*(=(?!\S)|[;}])", text[b:b + 200]) and re.search(r"[{;,]\s*(--[^\n]*\n\s*)*$", text[max(0, a - 400):a]):
                return r.fields[token]
            if token in bodies:
                return r.fields[token]
        if not dotted:
            return bare.get(token)
        return None

    def code(self, path, text, rust, scope, line=False):
        """The text with its code and its comments respelled."""
        pattern = RUST_TOKEN if rust else TOKEN
        tie = re.search(r"\bas tie\b|\.Tie\b|\.Lts-|\.Goals\b", text) is not None
        spans = records(text)
        starts = [a for a, _ in spans]
        bodies = [(0, len(text), self.only)] if line else [] if rust else self.bodies(path, text)
        out, quoted, last_end = [], False, 0
        for kind, a, b in pieces(text, rust):
            if kind == "string":
                out.append(text[a:b])
            elif kind == "comment":
                fresh = re.search(r"\n[ ]*$", text[last_end:a]) is None or text[last_end:a].count("\n") > 1
                done, quoted = self.comment(text[a:b], quoted and not fresh)
                out.append(done)
                last_end = b
            else:
                def swap(found):
                    token = found[0]
                    here = (a + found.start(), a + found.end())
                    inside = any(s <= here[0] < e for s, e in spans[max(0, bisect.bisect(starts, here[0]) - 12):bisect.bisect(starts, here[0])])
                    seen = next((names for s, e, names in bodies if s <= here[0] < e), ())
                    return self.new_name(text, here, token, scope, inside, seen, tie) or token
                out.append(pattern.sub(swap, text[a:b]))
        return "".join(out)

    def bodies(self, path, text):
        """(start, end, dashed members) of each record or data declaration of the file."""
        starts = [0]
        for line in text.split("\n"):
            starts.append(starts[-1] + len(line) + 1)
        lines, out, owned = text.split("\n"), [], collections.defaultdict(set)
        for name in declarations(path, text):
            if name.owner and name.name in self.renaming.fields:
                owned[name.owner[1]].add(name.name)
        for name in declarations(path, text):
            if name.kind in ("record", "data") and owned[name.name]:
                end = name.line + 1
                while end < len(lines) and (not lines[end].strip() or indent(lines[end]) > indent(lines[name.line])):
                    end += 1
                out.append((starts[name.line], starts[end], owned[name.name]))
        return out

    def plain(self, token):
        """The one new spelling of a token of a comment or a page: by every declaration of it."""
        r = self.renaming
        if token in r.anywhere:
            return r.anywhere[token]
        new = self.only.get(token)
        return new

    def words(self, text, ticked):
        """Respells the tokens of a comment or a page: those in backticks, and others unless the documents have the word."""
        def swap(found):
            token = found[0]
            core = token.rstrip(":!?'") if not self.plain(token) else token
            new = self.plain(core)
            if not new and ticked and core not in self.documents and core not in self.known:
                new = self.older(core)
            if not new or core in self.documents and not (ticked and " " in text):
                return token
            if not ticked and (core in PROSE or re.match(r"[a-z]+(-[a-z]+)*$", core)):
                return token
            return new + token[len(core):]
        return TOKEN.sub(swap, text)

    def older(self, token):
        """The name of a spelling that is declared no more: a page's `tableOf` is `table_of` of the files."""
        if not re.match(r"[A-Za-z0-9_'-]+$", token) or not re.search(r"[a-z0-9][A-Z-]", token):
            return None
        found = self.spellings.get(normal(token), set())
        if len({new for new, _ in found}) > 1:
            found = {(new, law) for new, law in found if law == ("-" in token)}
        news = {new for new, _ in found}
        if len(news) == 1:
            new = next(iter(news))
            if new != token:
                self.caught[(token, new)] += 1
                return new
        elif news:
            self.unsure.add((token, " or ".join(sorted(news))))
        return None

    def comment(self, text, quoted):
        """A comment's text, and whether a quotation is still open at its end."""
        out = []
        for place, piece in enumerate(text.split('"')):
            if place:
                quoted = not quoted
                out.append('"')
            if quoted:
                out.append(piece)
                continue
            parts = piece.split("`")
            if len(parts) % 2 == 0:
                out.append(self.words(piece, False))
                continue
            out.append("`".join(self.words(part, n % 2 == 1) for n, part in enumerate(parts)))
        return "".join(out), quoted

    def page(self, text):
        """A page: what stands in backticks, on one line or in a block."""
        out = []
        for place, block in enumerate(re.split(r"(?m)^(```.*)$", text)):
            if place % 2:
                out.append(block)
            elif place // 2 % 2:
                out.append(block)
            else:
                out.append(re.sub(r"`[^`\n]+`", lambda found: "`" + self.words(found[0][1:-1], True) + "`", block))
        return "".join(out)

    def edit(self, path, text):
        """The lines `old:` and `new:` of an edit, as the file that it edits."""
        crate = path.split("/must-fail/")[0]
        target, out = None, []
        for line in text.split("\n"):
            found = re.match(r"file: *(\S+)", line)
            if found:
                target = f"{crate}/{found[1]}"
            found = re.match(r"(old|new):(.*)$", line)
            if found and target:
                there = read_before(target)
                rust = target.endswith(".rt")
                scope = self.renaming.scope(target, there + "\n" + found[2].strip()) if there is not None else ({}, {"": set()})
                line = self.code(target, found[2], rust, scope, True)
                out.append(found[1] + ":" + self.caught_up(target, line, rust))
            else:
                out.append(line)
        return "\n".join(out)


    def caught_up(self, target, line, rust):
        """The line of an edit with the spellings that its file has: those in camel case or with dashes that stand there no more."""
        if target not in self.targets:
            tokens = set((RUST_TOKEN if rust else TOKEN).findall(self.changed.get(target, "")))
            by = collections.defaultdict(set)
            for token in tokens:
                by[normal(token)].add(token)
            self.targets[target] = (tokens, by)
        tokens, by = self.targets[target]

        def swap(found):
            token = found[0]
            if token in tokens or not re.match(r"[a-z][A-Za-z0-9_']*(-[A-Za-z0-9_']+)*$", token) or not re.search(r"[a-z0-9][A-Z-]", token):
                return token
            there = by.get(normal(token)) or {new for new, _ in self.spellings.get(normal(token), ())}
            return next(iter(there)) if len(there) == 1 else token
        return "".join(line[a:b] if kind != "code" else (RUST_TOKEN if rust else TOKEN).sub(swap, line[a:b]) for kind, a, b in pieces(line, rust))


BEFORE = {}


def read_before(path):
    if path not in BEFORE:
        BEFORE[path] = read(path) if os.path.isfile(path) else None
    return BEFORE[path]


# ---- what might fall together

def stems(name):
    return re.sub("_", "", name).lower()


def falls(renaming, paths):
    """What might be hidden or doubled by a new spelling, by file."""
    said = []
    for path in paths:
        text = read_before(path)
        rust = path.endswith(".rt")
        code = " ".join(text[a:b] for kind, a, b in pieces(text, rust) if kind == "code")
        code = re.sub(r"(?m)^( *(?:pub )?(?:ghost )?(?:pub )?use )[^\s{;]*", r"\1", code)
        code = re.sub(r"([{;]\s*)[^\s(){}.;,]+(?= = )", r"\1", code)
        tokens = {found[0] for found in (RUST_TOKEN if rust else TOKEN).finditer(code) if code[found.start() - 1:found.start()] != "."}
        bare, _ = renaming.scope(path, text)
        here = {old: new for old, new in list(renaming.anywhere.items()) + list(bare.items()) if old in tokens}
        heads = collections.defaultdict(set)
        for old, new in here.items():
            heads[new].add(old)
        hidden = set()
        if rust:
            for head in re.finditer(r"\bfn \w+(<[^>]*>)?\(", code):
                hidden.update(re.findall(r"(\w+)\s*:(?!:)", code[head.end():code.find(")", head.end())]))
        for new, olds in sorted(heads.items()):
            if new in (hidden if rust else tokens) and new not in bare:
                kind = []
                if re.search(r"use [^\n]*[{,] *" + re.escape(new) + r" *[,}]", text):
                    kind.append("imported")
                if not rust and any(n.name == new for n in declarations(path, text)):
                    kind.append("declared")
                if re.search(r"(?<![^\s({,])" + re.escape(new) + r"( [^\s:(){}]+)* :(?=\s)", text) or re.search(r"λ [^.]*(?<![^\s(])" + re.escape(new) + r"(?![^\s.)])", text):
                    kind.append("bound")
                if rust:
                    kind.append("a parameter")
                said.append(f"{path}: {', '.join(sorted(olds))} -> {new}, which stands there already ({', '.join(kind) or 'a token'})")
            if len(olds) > 1:
                said.append(f"{path}: {', '.join(sorted(olds))} all -> {new}")
        if not rust:
            items = [n for n in declarations(path, text) if n.kind not in ("field", "constructor")]
            old, new = collections.Counter(), collections.defaultdict(set)
            target = {n: s for (n, s) in ((a, b) for a, b in renaming.names if a.path == path)}
            for n in items:
                new[stems(target.get(n, n.name))].add((n.name, target.get(n, n.name)))
            for stem, both in new.items():
                if len(both) > 1 and any(a != b for a, b in both):
                    said.append(f"{path}: items that differ only in case: {', '.join(sorted(b + ' (' + a + ')' for a, b in both))}")
    return said


# ---- all of it

def main():
    words = [word for word in sys.argv[1:] if word != "--dry"]
    dry = "--dry" in sys.argv[1:]
    if words:
        os.chdir(words[0])
    renaming = Renaming()
    renaming.collect()
    documents = set()
    for path in files("docs/documents/*.md", "tests/kinetic.proto"):
        documents.update(TOKEN.findall(read(path)))
        documents.update(re.findall(r"\w+", read(path)))
    respelled = Respelled(renaming, documents)
    # one spelling for each token of a page or a comment: none where a law keeps what a definition loses
    renamed = {id(name) for name, _ in renaming.names}
    stays = {name.name for name, _ in renaming.declared if id(name) not in renamed}
    choices = collections.defaultdict(set)
    for name, new in renaming.names:
        choices[name.name].add(new)
    respelled.only = {old: next(iter(new)) for old, new in choices.items() if len(new) == 1 and old not in stays}
    for old, new in sorted(choices.items()):
        if len(new) > 1:
            print(f"two spellings: {old} -> {', '.join(sorted(new))}")

    antt = files("crates/*/specs/**/*.antt", "crates/*/proofs/**/*.antt")
    rust = files("crates/*/src/**/*.rt")
    for path in antt + rust:
        read_before(path)
    said = falls(renaming, antt + rust)
    changed = respelled.changed
    for path in antt + rust:
        text = read_before(path)
        changed[path] = respelled.code(path, text, path.endswith(".rt"), renaming.scope(path, text))
    for path in files("crates/*/must-fail/*.edit"):
        changed[path] = respelled.edit(path, read_before(path))
    for path in files("README.md", "docs/*.md", "docs/parts.txt"):
        changed[path] = respelled.page(read_before(path))
    written = 0
    for path, text in changed.items():
        if text != BEFORE[path]:
            written += 1
            if not dry:
                write(path, text)

    spellings = sorted({(name.name, new, name.kind) for name, new in renaming.names})
    print(f"{len(renaming.declared)} declared names ({len({n.name for n, _ in renaming.declared})} spellings); "
          f"{len(renaming.names)} renamed ({len({a for a, _, _ in spellings})} spellings); {written} files {'to write' if dry else 'written'}")
    for old, new, kind in spellings:
        print(f"  {old} -> {new} ({kind})")
    for line in sorted(set(said)):
        print(f"look: {line}")
    for name, why in renaming.left:
        print(f"left: {name.path}: {name.name}: {why}")
    for token, count in sorted(respelled.ambiguous.items()):
        print(f"left: {token} behind a dot, {count} times in files of answers: it may be a step of the proof")
    for (old, new), count in sorted(respelled.caught.items()):
        print(f"page: {old} -> {new}, {count} times in backticks")
    for token, news in sorted(respelled.unsure):
        print(f"page: left {token}: it may be {news}")
    for path in antt:
        for name in declarations(path, changed[path]):
            if name.kind not in ("data", "record") and any(camel_value(part) for part in name.name.split("-")) or "′" in name.name:
                print(f"left: {path}: {name.name} ({name.kind}): {KEEP.get(name.name, 'no rule')}")


if __name__ == "__main__":
    main()
