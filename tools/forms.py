#!/usr/bin/env python3
"""forms.py [-v] [POINT..]: counts in crates/*/src the places of each point of docs/DESIGN-PASS.md; -v lists them.

Run it at the top of a checkout. It reads text and proves nothing: what it finds is a place to look at."""
import collections
import os
import re
import sys

ARGS = sys.argv[1:]
VERBOSE = "-v" in ARGS
POINTS = [a for a in ARGS if a.isdigit()]


def files():
    for crate in sorted(os.listdir("crates")):
        for root, folders, names in os.walk(f"crates/{crate}/src"):
            folders.sort()
            for name in sorted(names):
                if name.endswith(".rt"):
                    path = f"{root}/{name}"
                    yield path, open(path).read()


HEAD = re.compile(r"^( *)(?:pub(?:\(crate\))? )?(?:extern \"C\" )?fn (\w+)", re.M)


def functions():
    """Each function as (path, name, signature, clauses, body)."""
    for path, text in files():
        for found in HEAD.finditer(text):
            end = re.compile("^" + found.group(1) + r"\}", re.M).search(text, found.start()).end()
            whole = re.sub("^" + found.group(1), "", text[found.start():end], flags=re.M)
            parts = re.split(r"^\{$|\{$", whole, maxsplit=1, flags=re.M)
            head, body = (parts + [""])[:2]
            lines = head.split("\n")
            clauses = [line.strip() for line in lines if re.match(r"\s+(requires|ensures)", line)]
            signature = " ".join(line.strip() for line in lines if not re.match(r"\s+(requires|ensures)", line))
            yield path, found.group(2), signature, clauses, body


def report(point, what, places):
    if POINTS and point not in POINTS:
        return
    print(f"{point} {what}: {len(places)}")
    if VERBOSE:
        for place in places:
            print("    " + place)


def facts(clause):
    """The conjuncts of a `requires`."""
    inner = clause[clause.index("{") + 1:clause.rindex("}")]
    return [f.strip() for f in inner.split("×")] if clause.startswith("requires") else []


def point1():
    enums, flags, numbers = [], [], []
    for path, text in files():
        for found in re.finditer(r"^(?:pub(?:\(crate\))? )?enum (\w+) \{(.*?)^\}", text, re.M | re.S):
            arms = re.findall(r"^    (\w+)(\(.*\))?,", found.group(2), re.M)
            if any(data for _, data in arms) or len(arms) <= 3:
                enums.append(f"{path} enum {found.group(1)}: " + ", ".join(n + d for n, d in arms))
        for found in re.finditer(r"^(?:pub(?:\(crate\))? )?struct (\w+) \{(.*?)^\}", text, re.M | re.S):
            if re.search(r": bool,", found.group(2)):
                flags.append(f"{path} struct {found.group(1)}")
    for path, name, signature, _, body in functions():
        if re.search(r"-> [iu](8|16|32|64|size)\b", signature):
            if re.search(r"return -?[0-9]+;|=> -?[0-9]+,|^    -?[0-9]+$|[{] -?[0-9]+ [}]|return [A-Z_]+;", body, re.M):
                numbers.append(f"{path} {name}")
    report("1", "own enums with data or of at most three cases", enums)
    report("1", "structs with a flag among their fields", flags)
    report("1", "functions that answer a number and in some case a fixed one", numbers)


def point2():
    groups = collections.defaultdict(list)
    for path, name, _, _, body in functions():
        shape = re.sub(r"//.*", "", body)
        shape = re.sub(r"\b[0-9][0-9a-z_]*\b|\b[A-Z][A-Z_0-9]+\b|\bu(8|16|32|64|size)\b|b'.'", "N", shape)
        shape = re.sub(r"\b[a-z_]\w*\b", "x", re.sub(r"\s+", " ", shape))
        if len(shape) > 60:
            groups[shape].append(f"{path} {name}")
    report("2", "groups of functions whose bodies differ in names, types and numbers alone",
           [", ".join(g) for g in groups.values() if len(g) > 1])


def point3():
    loops = []
    for path, text in files():
        for at, line in enumerate(text.split("\n"), 1):
            if re.match(r"\s+while ", line):
                loops.append(f"{path}:{at}: {line.strip()}")
    report("3", "while loops", loops)


def point4():
    hand = []
    for path, name, _, _, body in functions():
        if re.search(r"=> true,|\{ true \} else|^\s+true\n\s+\} else \{\n\s+false", body, re.M):
            hand.append(f"{path} {name}: a test by cases")
        if name in ("copy", "same", "at_most", "plus", "wide", "places_of", "nearer_of", "clear") or name.endswith("_number"):
            hand.append(f"{path} {name}: by its name")
        if re.search(r"if (\w+) < (\w+) \{ \1 \} else \{ \2 \}", body):
            hand.append(f"{path} {name}: the lesser of two")
    report("4", "equality, order, copying and conversion by hand", hand)


def point5():
    held = collections.defaultdict(set)
    runs = collections.defaultdict(set)
    for path, name, signature, clauses, _ in functions():
        for clause in clauses:
            for fact in facts(clause):
                held[fact].add(f"{path} {name}")
        names = re.findall(r"(\w+): (&?(?:mut )?[^,()]+)", signature)
        for one, two in zip(names, names[1:]):
            runs[f"{one[0]}: {one[1].strip()}, {two[0]}: {two[1].strip()}"].add(f"{path} {name}")
    report("5", "facts in the `requires` of three or more functions",
           [f"{len(v)} {k}" for k, v in sorted(held.items(), key=lambda p: -len(p[1])) if len(v) > 2])
    report("5", "pairs of neighbouring parameters in six or more functions",
           [f"{len(v)} {k}" for k, v in sorted(runs.items(), key=lambda p: -len(p[1])) if len(v) > 5])


def point6():
    found = [f"{path} {name}" for path, name, signature, _, _ in functions()
             if re.search(r"&(mut )?\[\w+\], (n|at|count|start|len): (usize|u64)", signature)]
    report("6", "functions with a slice and a place or length beside it", found)


def point7():
    found = []
    for path, name, _, _, body in functions():
        if re.search(r"match \w*(kind|due|letter|part)\w*\b|kind [!=]= [0-9]|\blead\b", body):
            found.append(f"{path} {name}")
    report("7", "functions that switch on a kind", found)


def point8():
    lines = 0
    for root, _, names in os.walk("crates"):
        if "/out" in root:
            continue
        for name in names:
            if name in ("Answers.antt", "Invariants.antt"):
                lines += len(open(f"{root}/{name}").read().splitlines())
    report("8", "lines of answers and invariants", [""] * lines if not VERBOSE else [str(lines)])


for go in (point1, point2, point3, point4, point5, point6, point7, point8):
    go()
