#!/usr/bin/env python3
"""Brings the names of definitions and lemmas to one spelling: words in snake case, types and propositions in camel case.

usage: python3 tools/snake_names.py [--list]     at the top of the repository, once, after the toolchain's own script

It renames what a file of specs/ or proofs/ declares with hyphens (definitions, lemmas, records and their fields, local definitions), in every
.antt file and in the ghost text of every .rt file. Names that the checker makes (goals, steps, branches) and those of the library stay. Code,
strings and comments of .rt files stay. --list prints the renamings and changes nothing.
"""
import collections
import os
import re
import sys

ROOT = "crates"
NAME = r"[A-Za-z_\u0080-\uffff][\w'-]*"
WORD = re.compile(r"(?<![\w'-])" + NAME)
SIGNATURE = re.compile(r"^([ \t]*)((?:abbrev |unfoldable |pub |opaque )*)([A-Za-z][\w'-]*)(?:[ \t]+[({][^\n]*?)?[ \t]+:[ \t\n]([^\n]*)", re.M)
RECORD = re.compile(r"^[ \t]*(?:pub )?(?:record|data) ([A-Za-z][\w'-]*)", re.M)
ANSWER = re.compile(r"^(?:goal|[\w.']*Goals|[\w.']*Given|[\w.']*)\.[\w'+-]+\s*$")
IMPORT = re.compile(r"^[ \t]*(?:ghost )?use ([\w.'-]+)\.\{([^}]*)\}", re.M)


def files():
    for folder, dirs, names in os.walk(ROOT):
        dirs[:] = sorted(d for d in dirs if d != "out")
        for name in sorted(names):
            if name.endswith((".antt", ".rt")):
                yield os.path.join(folder, name)


def bare(text):
    return re.sub(r"--.*", "", text)


def is_answer(path, rest):
    return os.path.basename(path) in ("Answers.antt", "Invariants.antt", "Choices.antt") and rest.strip().startswith("goal.")


def declared(paths):
    found, answers = set(), set()
    for path in paths:
        if not path.endswith(".antt"):
            continue
        with open(path, encoding="utf-8") as f:
            text = bare(f.read())
        for m in SIGNATURE.finditer(text):
            (answers if is_answer(path, m.group(4)) else found).add(m.group(3))
        found.update(RECORD.findall(text))
    return {n for n in found if "-" in n}, answers


def from_library(path):
    own = set(os.listdir(ROOT))
    with open(path, encoding="utf-8") as f:
        text = f.read()
    names = set()
    for m in IMPORT.finditer(text):
        parts = m.group(1).split(".")
        if not (parts[0] == "Rattle" and len(parts) > 1 and parts[1] in own):
            for item in m.group(2).split(","):
                names.add(item.split(" as ")[-1].strip())
                names.add(item.split(" as ")[0].strip())
    return names


def respelt(name):
    if name[0].isupper():
        return "".join(part[:1].upper() + part[1:] for part in name.split("-"))
    return name.replace("-", "_")


def turn(text, names):
    return WORD.sub(lambda m: names.get(m.group(0), m.group(0)), text)


def turn_rt(text, names):
    """Leaves comments and strings alone."""
    parts = re.split(r"(//[^\n]*|\"(?:\\.|[^\"\\])*\")", text)
    return "".join(p if i % 2 else turn(p, names) for i, p in enumerate(parts))


def main():
    paths = list(files())
    found, answers = declared(paths)
    renamed = {n: respelt(n) for n in sorted(found - answers)}
    renamed["Every-one"] = "EveryOne"
    count = collections.Counter(renamed.values())
    together = [n for n in renamed if count[renamed[n]] > 1]
    if together:
        sys.exit("fall together: " + ", ".join(together))
    if "--list" in sys.argv:
        for n, new in renamed.items():
            print(n, new)
        return
    for path in paths:
        with open(path, encoding="utf-8") as f:
            text = f.read()
        mine = {n: new for n, new in renamed.items() if n == "Every-one" or n not in from_library(path)}
        new = (turn if path.endswith(".antt") else turn_rt)(text, mine)
        if new != text:
            with open(path, "w", encoding="utf-8") as f:
                f.write(new)


main()
