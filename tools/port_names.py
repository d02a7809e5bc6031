#!/usr/bin/env python3
"""Brings the names of this repository's own definitions and lemmas to today's spelling, beside the kit's port/port.py.

    python3 tools/port_names.py before     before port.py: what stands in its way
    python3 tools/port_names.py after      after port.py: words in snake case

`before` makes the links below crates/ copies (one that leads nowhere goes: the program makes it), and gives `-lem` to each law that would
have the name of a definition beside it once both are in snake case (`last-on` and `lastOn`). `after` turns what port.py leaves: a name in
camel case or with dashes that a file of specs/ or proofs/ defines. Functions of src/, names that the check makes, strings, and names that a
file takes from elsewhere stay.
"""

import collections
import os
import re
import sys

ROOT = os.path.join(os.path.dirname(os.path.realpath(__file__)), "..")
CRATES = os.path.join(ROOT, "crates")

NAME = r"[a-z][A-Za-z0-9_'′-]*"
DEFINED = re.compile(r"^\s*(?:(?:pub|abbrev|unfoldable)\s+)*(" + NAME + r"(?:\s+" + NAME + r")*)\s*(?:\{[^}:]*\}\s*)?:(?!:)", re.M)
LET = re.compile(r"\blet\s+(" + NAME + r")\s*[:=]")
WORD = re.compile(r"(?<![A-Za-z0-9_'′-])" + NAME + r"(?![A-Za-z0-9_'′-])")
IMPORT = re.compile(r"^(?:ghost )?use ([^{;\n]*)\.\{([^}]*)\}", re.M)

# Laws that stand in one file with a definition whose name is theirs in snake case.
LAWS = """at-most begun-at by-parts chain-in code-of exact-at goes-on in-line in-place is-below is-listed last-of last-on latency-at line-count
listed-line merged-lines merged-trace numbers-quoted off-at on-choice on-field on-first on-levels on-line on-list on-matched on-place on-reached
on-read on-settled on-statistics point-at rest-put same-key send-in sends-in sends-under settled-from time-put times-quoted too-many up-to
whole-size written-trace""".split()


def snake(name):
    out = name.replace("′", "'").replace("-", "_")
    return re.sub(r"(?<=[a-z0-9])([A-Z])", lambda m: "_" + m.group(1).lower(), out)


def texts(*ends):
    for folder, dirs, files in os.walk(CRATES):
        dirs[:] = sorted(d for d in dirs if d != "out")
        for f in sorted(files):
            if f.endswith(ends):
                yield os.path.join(folder, f)


def read(path):
    with open(path, encoding="utf-8") as f:
        return f.read()


def write(path, text):
    with open(path, "w", encoding="utf-8") as f:
        f.write(text)


def bare(text):
    return re.sub(r"--(?=\s|-).*", "", text)


def answers(text):
    """The goals that a proof of the older form answers: names that the check makes."""
    return set(re.findall(r"\.Need-([A-Za-z0-9_'-]+)", text))


def before():
    for folder, dirs, files in os.walk(CRATES):
        for f in files:
            path = os.path.join(folder, f)
            if os.path.islink(path):
                target = os.path.join(folder, os.readlink(path))
                os.unlink(path)
                if os.path.exists(target):
                    with open(target, "rb") as old, open(path, "wb") as new:
                        new.write(old.read())
    law = re.compile(r"(?<![A-Za-z0-9_'′.-])(" + "|".join(LAWS) + r")(?![A-Za-z0-9_'′-])")
    for path in texts(".antt"):
        text = read(path)
        made = answers(text)
        new = law.sub(lambda m: m.group(1) if m.group(1) in made else m.group(1) + "-lem", text)
        if new != text:
            write(path, new)


def own_crates():
    return {c for c in os.listdir(CRATES) if os.path.isdir(os.path.join(CRATES, c))}


def definitions():
    found = set()
    for path in texts(".antt"):
        text = bare(read(path))
        made = answers(text)
        for m in DEFINED.finditer(text):
            found.update(n for n in m.group(1).split() if n not in made)
        found.update(n for n in LET.findall(text) if n not in made)
    return {n for n in found if snake(n) != n}


def foreign(text, own):
    """The names that a file takes from elsewhere."""
    names = set()
    for path, items in IMPORT.findall(text):
        parts = path.split(".")
        if not (parts[0] == "Rattle" and len(parts) > 1 and parts[1] in own):
            for item in items.split(","):
                names.update(item.split(" as ")[:1] and [item.split(" as ")[-1].strip(), item.split(" as ")[0].strip()])
    return names


def turned(text, names):
    return WORD.sub(lambda m: snake(m.group(0)) if m.group(0) in names else m.group(0), text)


def outside_strings(text, names):
    parts = re.split(r'(b?"(?:\\.|[^"\\])*")', text)
    return "".join(p if k % 2 else turned(p, names) for k, p in enumerate(parts))


def after():
    own = own_crates()
    names = definitions()
    for path in texts(".antt", ".rt"):
        text = read(path)
        here = names - foreign(text, own) - answers(text)
        new = outside_strings(text, here) if path.endswith(".rt") else turned(text, here)
        if new != text:
            write(path, new)
    taken = collections.defaultdict(set)
    for n in names:
        taken[snake(n)].add(n)
    for new, olds in sorted(taken.items()):
        if len(olds) > 1:
            print("look: " + ", ".join(sorted(olds)) + " are both " + new)


if __name__ == "__main__":
    {"before": before, "after": after}[sys.argv[1]]()
