#!/usr/bin/env python3
"""Brings the repository's own names to today's spelling: definitions, lemmas, fields and constructors in snake case.

usage: respell.py apart    before port.py: names that today's spelling would make one are told apart
       respell.py spell    after port.py: every own name of specs/ and proofs/ in snake case

Run it at the top. It goes by whole words, through .antt, .rt (clauses and comments), must-fail edits and docs.
Functions of src/, exported names, strings, types and modules keep theirs.
"""

import collections
import glob
import os
import re
import sys

WORD = r"[^\s(){}\[\].;,@\"«»:`]+"
NOT_NAMES = {"use", "mod", "unfolding", "infixl", "infixr", "infix", "--", "where", "rules", "syntax", "ruleset", "="}
# Own lemmas that today's spelling would name as the function that they are about.
LEMMAS = {"bit-or": "bit-or-lem", "bit-and": "bit-and-lem", "with-all": "with-all-lem"}
PORTED = {"T-test": "T_test", "K2-due": "K2Due", "K2-prints": "K2Prints", "Wrote-as": "WroteAs"}


def declared():
    """The own names: of each its kinds ('type', 'fn', 'field') with the file."""
    found = collections.defaultdict(set)
    files = glob.glob("crates/*/specs/**/*.antt", recursive=True) + glob.glob("crates/*/proofs/*.antt")
    for path in sorted(files):
        with open(path, encoding="utf-8") as f:
            text = re.sub(r"(?m)--(?=\s).*$", "", f.read())
        tops = rf"^((?:(?:unfoldable|abbrev|pub|record|data) )*)({WORD}) ?(?=[:(\[{{]|.*:)"
        for m in re.finditer(tops, text, re.M):
            kind = "type" if "record" in m[1] or "data" in m[1] else "fn"
            if m[2] not in NOT_NAMES:
                found[m[2]].add((kind, path))
        for m in re.finditer(rf"^  ((?:pub )?{WORD}(?: {WORD})*) :", text, re.M):
            for name in m[1].replace("pub ", "").split():
                found[name].add(("field", path))
    return found


def nested():
    """What is declared inside of another declaration or module, by its name."""
    found = set()
    files = glob.glob("crates/*/specs/**/*.antt", recursive=True) + glob.glob("crates/*/proofs/*.antt")
    for path in sorted(files):
        with open(path, encoding="utf-8") as f:
            text = re.sub(r"(?m)--(?=\s).*$", "", f.read())
        inner = rf"^ +((?:(?:unfoldable|abbrev|pub|record|data) )*)({WORD}) ?(?=[:(\[{{]|.*:)"
        found |= {m[2] for m in re.finditer(inner, text, re.M)}
    return found - NOT_NAMES - {"let", "in", "do", "elim", "cond", "λ"}


def snake(name):
    if name in PORTED:
        return PORTED[name]
    if name[0].isupper() or "◌" in name or "_" == name[0]:
        return name
    name = re.sub(r"(?<=[a-z0-9'])([A-Z])", lambda m: "_" + m[1].lower(), name)
    return name.replace("-", "_")


def fallen_together(found):
    """For each group of names with one spelling a new name for all but the first of its definitions."""
    groups = collections.defaultdict(set)
    for name in found:
        groups[snake(name)].add(name)
    new = {}
    for spelling, names in groups.items():
        if len(names) < 2:
            continue
        kept = sorted(names, key=lambda n: ("-" in n, n))[0]
        for name in names - {kept}:
            kinds = {k for k, _ in found[name]}
            end = "-is" if kinds == {"field"} else "-lem"
            new[name] = name + end
            if snake(new[name]) in groups:
                new[name] = name + end + "-here"
    return new


def files():
    yield from sorted(glob.glob("crates/*/src/**/*.rt", recursive=True))
    yield from sorted(glob.glob("crates/*/specs/**/*.antt", recursive=True))
    yield from sorted(glob.glob("crates/*/proofs/**/*.antt", recursive=True))
    yield from sorted(glob.glob("crates/*/must-fail/*"))
    yield from sorted(glob.glob("docs/*.md"))
    yield "README.md"


def rename(table):
    """Whole words, by the table; in pages only inside code spans; no string, no path of a file."""
    part = re.compile(r"\"(?:\\.|[^\"\\\n])*\"|[^\s(){}\[\].;,@\"«»:`]+")
    step = re.compile(r" in\b| ?\.(ensures|result|last|kept|given|auto|new|now|requires)(?![\w'-])")
    changed = 0
    own = set(os.listdir("crates"))
    uses = re.compile(r"^(?:pub |ghost )*use ([^\s{;]+)\.\{([^}]*)\}", re.M)

    def of_library(text):
        """What a file takes from a library that is not the repository's: it keeps its spelling there."""
        names = set()
        for m in uses.finditer(text):
            crate = re.match(r"Rattle.(\w+)", m[1])
            if not (crate and crate[1] in own):
                names |= {n.strip().split(" as ")[0] for n in m[2].split(",")}
        return names

    def turn(m):
        if m[0] in kept:
            return m[0]
        made = of_proof and m.start() > 0 and m.string[m.start() - 1] == "." and step.match(m.string, m.end())
        return m[0] if made else table.get(m[0], m[0])

    for path in files():
        with open(path, encoding="utf-8", newline="") as f:
            text = f.read()
        # There a name behind a dot and before .ensures is a call's, which Rattle makes.
        of_proof = path.endswith("/Proof.antt")
        kept = of_library(text)
        if path.endswith(".md"):
            out = re.sub(r"`[^`\n]*`", lambda m: part.sub(turn, m[0]), text)
        else:
            lines = text.split("\n")
            if path.endswith(".edit"):
                out = "\n".join(l if l.startswith("file:") else part.sub(turn, l) for l in lines)
            else:
                out = "\n".join(part.sub(turn, l) for l in lines)
        if out != text:
            changed += 1
            with open(path, "w", encoding="utf-8", newline="") as f:
                f.write(out)
    print(f"respell: {len(table)} names, {changed} files")


def respell_aliases():
    """A name that a file gives to what it takes, as in `a as b`: snake case, or camel case for what begins so."""
    uses = re.compile(r"^(?:pub |ghost )*use [^\s{;]+\.\{([^}]*)\}", re.M)
    for path in files():
        if not path.endswith((".antt", ".rt")):
            continue
        with open(path, encoding="utf-8", newline="") as f:
            text = out = f.read()
        for m in uses.finditer(text):
            for item in m[1].split(","):
                old = item.strip().split(" as ")[-1].strip()
                if " as " not in item or not re.search(r"-|[a-z][A-Z]", old) or "◌" in old:
                    continue
                if old[0].isupper():
                    new = re.sub(r"-(\w)", lambda p: p[1].upper(), old)
                else:
                    new = snake(old)
                word = rf"(?<![\w'-]){re.escape(old)}(?![\w'-])"
                if new != old and not re.search(rf"(?<![\w'-]){re.escape(new)}(?![\w'-])", out):
                    out = re.sub(word, new, out)
        if out != text:
            with open(path, "w", encoding="utf-8", newline="") as f:
                f.write(out)


def main(argv):
    found = declared()
    if argv == ["apart"]:
        rename(fallen_together(found) | LEMMAS)
        return 0
    if argv == ["spell"]:
        types = {n for n, kinds in found.items() if n[0].isupper()}
        table = {n: snake(n) for n in found if snake(n) != n and (n not in types or n in PORTED)}
        taken = collections.Counter(table.values())
        for name in sorted(table):
            if taken[table[name]] > 1 or table[name] in found:
                print(f"left: {name} and another name fall together at {table[name]}")
        inner = {n for n in nested() - set(found) if snake(n) != n}
        others = set(found) | set(table.values())
        for name in sorted(inner):
            new = snake(name)
            table[name] = new + "_lem" if new in others else new
            others.add(table[name])
        rename(table)
        respell_aliases()
        return 0
    print(__doc__)
    return 2


if __name__ == "__main__":
    raise SystemExit(main(sys.argv[1:]))
