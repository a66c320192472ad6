#!/usr/bin/env python3
"""Brings the names of definitions and lemmas in crates/*/specs and crates/*/proofs to snake case, once.

Functions of src/, exported names, strings, inputs and outputs keep their names. usage: tools/snake-names.py [--dry] [--again]; --again: over a tree in which the names of OTHER were turned already
Names that would fall together with another name of the same place get the spelling of OTHER below.
"""

import collections
import os
import re
import sys

DRY = "--dry" in sys.argv
OTHER = {
    "entryRead": "entry_reading",
    "entryWrite": "entry_writing",
    "found_in": "found_in_lem",
    "read_answer": "read_answer_lem",
    "refused_as": "refused_as_lem",
    "too_long": "too_long_lem",
    "in-word": "in_word_lem",
    "ranked-at": "ranked_at_lem",
}
if "--again" in sys.argv:
    OTHER = {a: b for a, b in OTHER.items() if "-" in a or a != a.lower()}
TOKEN = re.compile(r"[^\s(){}\[\].,;:λ∀∃→×⊎`\"|]+")
SIGN = re.compile(r"^( *)(?:(?:unfoldable|abbrev|pub) )*([^\s:(){}.]+)(?: \{[^}]*\})?(?: \([^)]*\))* :(?: |$)")
RECORD = re.compile(r"^(?:pub )?record ")
FIELD = re.compile(r"^  (?:pub )?([^\s:(){}.]+)(?: [^\s:(){}.]+)* : ")


def files(ends):
    for d, ds, fs in os.walk("crates"):
        ds[:] = sorted(x for x in ds if x != "out")
        for f in sorted(fs):
            if f.endswith(ends):
                yield os.path.join(d, f)


def of_function(path):
    return "/proofs/" in path and len(path.split(os.sep)) > 4


def snake(name):
    if name in OTHER:
        return OTHER[name]
    name = re.sub(r"(?<=[a-z0-9])([A-Z])", lambda m: "_" + m.group(1).lower(), name)
    return name.replace("-", "_")


def wants(name):
    if name in OTHER:
        return True
    return name[0].islower() and ("-" in name or re.search(r"[a-z0-9][A-Z]", name)) and re.fullmatch(r"[A-Za-z0-9'_-]+", name)


def found():
    names, fields = set(), set()
    where = collections.defaultdict(set)
    for p in files(".antt"):
        if of_function(p):
            continue
        inside = False
        for line in open(p, encoding="utf-8"):
            if RECORD.match(line):
                inside = True
                continue
            if line[:1] not in (" ", "\n", "-"):
                inside = False
            if inside:
                m = FIELD.match(line)
                for n in re.match(r"^  (?:pub )?(.*?) : ", line).group(1).split() if m and not line.strip().startswith("--") else []:
                    where[p].add(n)
                    if wants(n):
                        names.add(n)
                        fields.add(n)
                continue
            m = SIGN.match(line)
            if m and not line.strip().startswith("--"):
                where[p].add(m.group(2))
                if wants(m.group(2)):
                    names.add(m.group(2))
    return names, fields, where


def also():
    """Names that `use` lines give, and the parameters of statements."""
    out = {"accepted-second", "room-a", "room-b"}
    for p in files((".antt", ".rt")):
        if of_function(p):
            continue
        for line in open(p, encoding="utf-8"):
            if re.match(r"^\s*(?:ghost )?use ", line):
                out |= {w for w in re.findall(r" as ([^\s,};]+)", line) if wants(w)}
    return out


def foreign():
    """Names that the files take from the kit."""
    out = set()
    for p in files((".antt", ".rt")):
        for line in open(p, encoding="utf-8"):
            m = re.match(r"^\s*(?:ghost )?use ([\w.+-]+)\.\{(.*)\}", line)
            if m and not (m.group(1).startswith("Rattle.") and m.group(1).split(".")[1] in OWN):
                out |= {w.split(" as ")[-1].strip() for w in m.group(2).split(",")}
                out |= {w.split(" as ")[0].strip() for w in m.group(2).split(",")}
    return out


OWN = sorted(os.listdir("crates"))


def turned(text, path, names, fields):
    def one(m):
        w = m.group(0)
        if w not in names:
            return w
        before = text[m.start() - 1] if m.start() else ""
        if of_function(path) and before == "." and w not in fields:
            # a step of the code, unless it ends a module's path
            line = text[text.rfind("\n", 0, m.start()) + 1:m.start()]
            if not line.startswith("use "):
                return w
        return snake(w)

    out, at = [], 0
    for line in text.splitlines(keepends=True):
        code, dash, comment = line, "", ""
        k = re.search(r"(^|\s)(--|//) ", line)
        if k and not path.endswith(".md"):
            code, comment = line[:k.start()], line[k.start():]
        out.append(sub(code, at, one))
        out.append(sub(comment, 0, lambda m: snake(m.group(0)) if m.group(0) in names and "-" not in m.group(0) else m.group(0), True))
        at += len(line)
    return "".join(out)


class At:
    def __init__(self, m, shift):
        self.m, self.shift = m, shift

    def group(self, k):
        return self.m.group(k)

    def start(self):
        return self.m.start() + self.shift


def sub(piece, shift, f, plain=False):
    parts = re.split(r'("(?:[^"\\]|\\.)*")', piece)
    out, at = [], shift
    for k, x in enumerate(parts):
        out.append(x if k % 2 else TOKEN.sub(lambda m: f(m if plain else At(m, at)), x))
        at += len(x)
    return "".join(out)


def main():
    names, fields, where = found()
    names |= also()
    theirs = foreign()
    both = {n for n in names if n in theirs}
    print("names of the kit too, left:", sorted(both))
    names -= both
    everywhere = set().union(*where.values())
    for n in sorted(names):
        if "-" in n and n not in OTHER and (any(m != n and "-" not in m and snake(m) == snake(n) for m in names) or snake(n) in everywhere):
            OTHER[n] = snake(n) + "_lem"
    to = collections.defaultdict(set)
    for n in names:
        to[snake(n)].add(n)
    for p, ns in where.items():
        here = collections.defaultdict(set)
        for n in ns:
            here[snake(n) if n in names else n].add(n)
        for s, olds in here.items():
            if len(olds) > 1:
                print("fall together in", p, s, sorted(olds))
    functions = set()
    for p in files(".rt"):
        functions |= set(re.findall(r"\bfn (\w+)", open(p, encoding="utf-8").read()))
    for s in sorted(to):
        if s in functions:
            print("as a function:", s, sorted(to[s]))
        if s in everywhere or s in theirs:
            print("as another name:", s, sorted(to[s]), [p for p in where if s in where[p]], s in theirs)
        if len(to[s]) > 1:
            print("two names:", s, sorted(to[s]))
    new = set(to)
    for p in files((".antt", ".rt")):
        text = open(p, encoding="utf-8").read()
        words = set(TOKEN.findall(text))
        for s in sorted(words & new):
            if any(o in words for o in to[s]) and s not in names:
                print("hidden:", p, s)
    n = 0
    paths = list(files((".antt", ".rt", ".edit")))
    for p in paths:
        text = open(p, encoding="utf-8").read()
        new = turned(text, p, names, fields)
        if new != text:
            n += 1
            if not DRY:
                open(p, "w", encoding="utf-8").write(new)
    print(len(names), "names,", n, "files")


main()
