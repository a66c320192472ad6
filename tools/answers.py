#!/usr/bin/env python3
"""Turns the proofs/**/Proof.antt of a crate in the older form into Invariants.antt and Answers.antt.

usage, at the top: (cd crates/NAME && rt check --generated OUT --old-names); tools/answers.py NAME OUT/names.json [PART OF A PATH ..]

It goes by text. A goal of the older form gets the name of today's, and a path `c.before.before.step.field` becomes
`c.STEP.FIELD` by the names of today. What it can't turn it prints, and the check says what is left. A recursion's proof,
in a folder that begins with +, and lemmas over the older form's records are left for the hand.
"""

import json
import os
import re
import sys

WORD = r"[A-Za-z0-9_'+\-₀₁₂₃κ◌]+"
INVARIANT = re.compile(rf"^(?:abbrev )?{WORD} : tie\.(invariant|decreases)-(\S+)")
GOAL = re.compile(rf"^(?:pub )?({WORD}) : tie\.Need-(\S+)")
ALIAS = re.compile(rf"(?:\n *| )let ({WORD}) = (c(?:\.before)*(?:\.(?!before){WORD})?) in(?=\s)")
PATH = re.compile(rf"(?<![\w.\-])c((?:\.before)*)\.({WORD})((?:\.{WORD})*)")
LIBRARY = {"arith": "use native.Mathlib.Omega.{arith}", "rules": "use borrow.Author.Rules.{rules}"}


def plain(name):
    """One spelling for the names of three kits."""
    return re.sub("-lem$", "", name.replace("_", "-").lower())


def paragraphs(text):
    return [p.split("\n") for p in re.split(r"\n(?:[ \t]*\n)+", text.strip("\n")) if p.strip()]


def replaced(text, names):
    """The words of a text by a table, but not behind a dot."""
    return re.sub(rf"(?<!\.)(?<![\w'+\-◌]){WORD}", lambda m: names.get(m.group(0), m.group(0)), text)


def body_of(lines):
    """The line `unfolding ..`, if one is there, and what follows the signature."""
    rest = lines[1:]
    opened = rest.pop(0) + "\n" if rest and rest[0].startswith("unfolding") else ""
    return opened, "\n".join(rest)


class Function:
    """A function's names of the older form and of today's."""

    def __init__(self, names):
        self.loops = list(zip(names["loops"], names["changed"]))
        self.goals = list(zip(names["needs"], names["asked_at"]))
        self.places = {p[0]: p for p in names["places"]}
        self.arms = {p[0]: a for p, a in zip(names["places"], names["arms"])}
        self.args = [[w.split(" .") for w in pair] for pair in names["args"]]

    def loop(self, name):
        """Today's name of a loop, and what its parameters are, in the older form's order."""
        for ((old, new), variables), changed in self.loops:
            if plain(old) == plain(name):
                first = [("l.initial." if c else "l.") + v for v, c in zip(variables, changed)]
                return new, first + ["l." + v for v, c in zip(variables, changed) if c]
        return None

    def goal(self, name, written_as):
        """Today's name of a goal, and the place where it is asked."""
        tries = [plain(name), re.sub("^overflow-", "", plain(name)), re.sub("^slice-bounds-", "part-", plain(name)), plain(written_as)]
        for t in tries:
            for (old, new), (place, _) in self.goals:
                if plain(old) == t:
                    return new, place
        return None

    def above(self, place):
        """A place and those that it lies behind, the nearest first."""
        chain = []
        while place in self.places:
            chain.append(place)
            place = self.places[place][1]
        return chain

    def in_arms(self, chain, step, fields):
        """What a path says of an arm of a `match`, in today's names."""
        best = None
        for place in chain:
            for new, old_step, old_fields in (self.arms.get(place) or [0, 0, []])[2]:
                n = len(old_fields)
                if plain(old_step) != plain(step) or [plain(f) for f in fields[:n]] != [plain(f) for f in old_fields]:
                    continue
                if new.endswith("-own") and not n and not fields:
                    continue
                if best is None or n > best[0]:
                    best = (n, f"c.{self.arms[place][0]}.{new}")
        return best and ".".join([best[1], *fields[best[0]:]])

    def argument(self, step, fields):
        for old, new in self.args:
            if len(old) == 2 and plain(old[0]) == "." + plain(step) and fields and plain(fields[0]) == plain(old[1]):
                return [new[1], *fields[1:]]
        return fields

    def path(self, chain, behind, step, fields):
        """A path in today's names, or None."""
        if re.match(r"if\d|.*-test$", step) and fields:
            fields = [{"taken": "true", "left": "false"}.get(fields[0], fields[0]), *fields[1:]]
        arm = self.in_arms(chain, step, fields)
        if arm:
            return arm
        if step == "pre":
            step = "requires"
        if step in ("requires", "args", "ranges", "lifetimes"):
            return ".".join(["c", step, *self.argument(step, fields)])
        if plain(step) == "well-formed":
            return "c.WELLFORMED"
        for place in chain[behind:behind + 1] + chain:
            (old, new), renamed = self.places[place][2], dict(self.places[place][4] or [])
            if plain(old) == plain(step):
                return ".".join(["c", new, *[renamed.get(f, f) for f in fields[:1]], *fields[1:]])
        return None

    def answer(self, text, place, tell):
        """The text of an answer at a place, in today's names."""
        chain = self.above(place)
        while ALIAS.search(text):
            aliases = dict(ALIAS.findall(text))
            text = ALIAS.sub("", text)
            for name, path in aliases.items():
                text = re.sub(rf"(?<![\w.\-]){re.escape(name)}(?![\w\-'])", path, text)

        def turn(m):
            new = self.path(chain, m.group(1).count(".before"), m.group(2), m.group(3).split(".")[1:])
            if new is None:
                tell("no such step", m.group(0))
            return new or m.group(0)

        text = PATH.sub(turn, text)
        # what a type says, as a length, `omega` finds by itself
        text = re.sub(r", c\.WELLFORMED\b", "", text).replace("omega (arith)", "omega arith").replace("c.WELLFORMED", "(omega arith)")
        return re.sub(r"(\()?not-(?:false|true) _ (c\.[^\s()]+\.(?:false|true))-raw(?(1)\))", r"\2", text)


def imports(uses, text):
    """Those imports of which the text has a word."""
    words = set(re.findall(r"[^\s(){},;.]+", text))
    kept = []
    for use in uses:
        m = re.match(r"use ([^{]+)\.\{(.*)\}$", use)
        if not m:
            name = use.split()[-1].split(".")[-1]
            kept += [use] if re.search(rf"(?<![\w.-]){re.escape(name)}\.", text) else []
            continue
        there = []
        for word in m.group(2).split(", "):
            name = word.split(" as ")[-1]
            parts = [p for p in name.split("◌") if p]
            if name in words or "◌" in name and all(p in words for p in parts):
                there.append(word)
        kept += [f"use {m.group(1)}.{{{', '.join(there)}}}"] if there else []
    for word, use in LIBRARY.items():
        if re.search(rf"\b{word}\b", text) and not any(re.search(rf"\b{word}\b", u) for u in kept):
            kept.append(use)
    return kept


def converted(text, function, tell):
    """Of a Proof.antt its imports, the invariants and measures, the answers, and other lemmas."""
    uses, chosen, answers, lemmas = [], [], [], []
    for lines in paragraphs(text):
        if all(l.startswith(("use ", "--")) for l in lines) and any(l.startswith("use ") for l in lines):
            uses += [l for l in lines if l.startswith("use ") and not re.search(r"\.(Statement|Tie|Lts|Reads)\b", l)]
            continue
        n = next((k for k, l in enumerate(lines) if not l.startswith("--")), len(lines))
        comments, lines = lines[:n], lines[n:]
        signature = lines[0] if lines else ""
        opened, body = body_of(lines)
        m = INVARIANT.match(signature)
        if m:
            head, _, right = body.partition(" =")
            loop = function.loop(m.group(2))
            if loop is None or len(loop[1]) != len(head.split()) - 1:
                tell("loop", signature)
                continue
            name = f"{m.group(1)}-{loop[0]}"
            right = replaced(right, dict(zip(head.split()[1:], loop[1])))
            chosen.append("\n".join([*comments, f"abbrev pub {name} : goal.{name}\n{opened}{name} l ={right}"]))
            continue
        m = GOAL.match(signature)
        if m:
            equation = re.match(rf"{re.escape(m.group(1))}((?: \S+)*?) =", body)
            if not equation:
                tell("no equation", signature)
                continue
            right = body[equation.end():]
            if right.strip() == "search rules" and not opened:
                continue
            goal = function.goal(m.group(2), m.group(1))
            if goal is None:
                tell("no such goal", signature)
                continue
            right = function.answer(right, goal[1], lambda *words: tell(goal[0], *words))
            answers.append("\n".join([*comments, f"pub {goal[0]} : goal.{goal[0]}\n{opened}{goal[0]} c ={right}"]))
            continue
        if "tie.close" in body or re.match(r"pub \S+[-_]spec\b", signature):
            continue
        if "tie." in "\n".join(lines):
            tell("lemma over the older form", signature)
        lemmas.append("\n".join(comments + lines))
    return uses, chosen, answers, lemmas


def main():
    crate, names, parts = sys.argv[1], json.load(open(sys.argv[2], encoding="utf-8")), sys.argv[3:]
    root = os.path.join("crates", crate, "proofs")
    for folder, _, files in os.walk(root):
        path = os.path.join(folder, "Proof.antt")
        if "Proof.antt" not in files or parts and not any(p in path for p in parts):
            continue
        module = f"{crate}.proofs." + os.path.relpath(folder, root).replace(os.sep, ".")
        known = names.get("Rattle-" + module.replace(".", "-", 1) + ".Lts")
        if known is None:
            print(path, "no names")
            continue
        with open(path, encoding="utf-8") as f:
            uses, chosen, answers, lemmas = converted(f.read(), Function(known), lambda *words: print(path, *words))
        cited = [l for l in lemmas if any(re.search(rf"(?<![\w-]){re.escape(n)}(?![\w-])", "\n".join(chosen)) for n in re.findall(rf"^(?:pub )?(?:abbrev )?({WORD}) :", l, re.M))]
        for name, items, beside, goals in [("Invariants", chosen, cited, "Given"), ("Answers", answers, lemmas, "Goals")]:
            if items:
                text = "\n\n".join(beside + items)
                head = [*imports(uses, text), f"use Rattle.{module}.{goals} as goal"]
                with open(os.path.join(folder, name + ".antt"), "w", encoding="utf-8") as f:
                    f.write("\n".join(head) + "\n\n" + text + "\n")
        os.remove(path)


main()
