#!/usr/bin/env python3
"""Counts the places in src/ that may be written in a plainer form.

    python3 tools/forms.py [-v] [FOLDER]

FOLDER is the top of a checkout (here, by default); -v prints each place. A place that is found is a question, not
a fault: docs/DESIGN-PASS.md says what became of each.
"""
import collections
import pathlib
import re
import sys


class Source:
    """One file of src/, without its comments, clauses and ghost lines."""

    def __init__(self, top, path):
        self.name = str(path.relative_to(top / "crates"))
        text = path.read_text()
        self.text = text
        self.code = "\n".join(code_line(line) for line in text.split("\n"))

    def line(self, at):
        return self.code.count("\n", 0, at) + 1

    def places(self, pattern):
        for found in re.finditer(pattern, self.code, re.M):
            yield f"{self.name}:{self.line(found.start())}: {first_line(found.group(0))}"


def code_line(line):
    bare = line.strip()
    if bare.startswith(("//", "ghost ", "requires ", "ensures ")):
        return ""
    return line


def first_line(text):
    lines = [x.strip() for x in text.strip().split("\n")]
    return " ".join(lines)[:110]


FUNCTION = re.compile(r"^( *)(?:pub(?:\([a-z]+\))? )?fn (\w+)", re.M)


def functions(source):
    """Each function: its name, its place, its parameters and its body."""
    for found in FUNCTION.finditer(source.code):
        rest = source.code[found.end():]
        opened = rest.find("(")
        depth, at = 0, opened
        for at in range(opened, len(rest)):
            depth += {"(": 1, ")": -1}.get(rest[at], 0)
            if depth == 0:
                break
        parameters = rest[opened + 1:at]
        body = re.match(r"[^{;]*\n?\s*(\{.*?^" + found.group(1) + r"\}|\{[^\n]*\})", rest[at + 1:], re.M | re.S)
        yield found.group(2), f"{source.name}:{source.line(found.start())}", parameters, body.group(1) if body else ""


def shape(body):
    """A body with its names and numbers numbered in the order in which they come."""
    seen = {}
    words = re.findall(r"[A-Za-z_]\w*|\d[\d_]*|\S", body)
    keep = {"match", "if", "else", "let", "for", "in", "return", "while", "mut", "Some", "None", "Ok", "Err", "self"}
    return " ".join(w if w in keep or not re.match(r"\w", w) else seen.setdefault(w, f"${len(seen)}") for w in words)


def enums(sources):
    """Enums of the shape of an Option or a Result."""
    for s in sources:
        for found in re.finditer(r"enum (\w+)[^{]*\{\n(.*?)^\}", s.code, re.M | re.S):
            variants = [v.strip() for v in found.group(2).split("\n") if re.match(r"\s{4}\w", v)]
            if len(variants) == 2 and any("(" in v for v in variants):
                yield f"{s.name}:{s.line(found.start())}: enum {found.group(1)}"


def underived(sources):
    """Own types that derive Clone but no equality."""
    for s in sources:
        for found in re.finditer(r"#\[derive\(([^)]*)\)\]\n(pub(?:\(\w+\))? )?(struct|enum) (\w+)", s.code):
            if "Clone" in found.group(1) and "PartialEq" not in found.group(1):
                yield f"{s.name}:{s.line(found.start())}: {found.group(3)} {found.group(4)}"


def numbers(sources):
    """Functions whose arms give numbers for kinds."""
    arm = re.compile(r"^\s*(?:\w+::\w+(?:\([^)]*\)+)?|Ok\(\S+\)) => (?:\d+|b'.'),$", re.M)
    for s in sources:
        for name, place, _, body in functions(s):
            if arm.search(body):
                yield f"{place}: fn {name}"


def twins(sources):
    groups = collections.defaultdict(list)
    for s in sources:
        for name, place, _, body in functions(s):
            words = re.findall(r"\w+", body)
            if len(words) >= 7:
                groups[shape(body)].append(f"{place}: fn {name}")
    for places in groups.values():
        if len(places) > 1:
            yield from places


def constants(sources):
    groups = collections.defaultdict(list)
    for s in sources:
        for found in re.finditer(r"const (\w+): \w+ = ([\d_]+);", s.code):
            groups[found.group(2).replace("_", "")].append(f"{s.name}:{s.line(found.start())}: const {found.group(1)} = {found.group(2)}")
    for places in groups.values():
        if len(places) > 1:
            yield from places


def together(sources):
    """Pairs of parameters that three or more functions take together; each function counts once."""
    groups = collections.defaultdict(list)
    for s in sources:
        for name, place, parameters, _ in functions(s):
            names = sorted(re.findall(r"(\w+): ", parameters))
            for i, a in enumerate(names):
                for b in names[i + 1:]:
                    groups[(a, b)].append(f"{place}: fn {name}")
    for (a, b), places in sorted(groups.items(), key=lambda g: -len(g[1])):
        if len(places) >= 3:
            yield f"{a}, {b}: {len(places)} functions"


def clauses(sources):
    """Clauses that stand in three or more contracts."""
    groups = collections.defaultdict(list)
    for s in sources:
        for found in re.finditer(r"^\s*(?:ensures|requires) (?:\w+ )?\{ (.*) \}$", s.text, re.M):
            groups[re.sub(r"\b(?:table|self|register|board)\.", "_.", found.group(1))].append(s.name)
    for clause, places in sorted(groups.items(), key=lambda g: -len(g[1])):
        if len(places) >= 3:
            yield f"{len(places)} contracts: {clause[:100]}"


def by(pattern):
    return lambda sources: [p for s in sources for p in s.places(pattern)]


def answers(sources):
    for path in sorted(TOP.glob("crates/*/proofs/**/Answers.antt")):
        for found in re.finditer(r"^pub ([\w-]+) :", path.read_text(), re.M):
            yield f"{path.relative_to(TOP / 'crates')}: {found.group(1)}"


POINTS = [
    (1, "own enums of the shape of an Option or a Result", enums),
    (1, "flags", by(r"\b\w+: bool\b")),
    (1, "numbers for kinds, given by the arms of a match", numbers),
    (1, "a refusal by let-else or a match, without `?`", by(r"else \{\s*return (?:Err\([^;]*\)|None);\s*\}|^\s*None => (?:return )?None,")),
    (1, "a refusal by an if that returns an Err", by(r"if [^{]*\{\s*return Err\(")),
    (1, "own types with no derived equality", underived),
    (2, "functions of one shape", twins),
    (2, "constants of one value", constants),
    (2, "impls of a search over places", by(r"^impl.* Entries for .*")),
    (3, "loops over a range of numbers", by(r"^\s*for \w+ in [^{]*\.\.[^{]*\{")),
    (3, "while and loop", by(r"^\s*(?:while|loop)\b[^{]*\{|= loop \{")),
    (3, "counts by hand", by(r"\w+ \+= 1;")),
    (3, "for loops that only test or pick", by(r"^\s*for [^{]*\{\n\s*(?:if|match) [^{]*\{\n\s*(?:return|b'|_)")),
    (4, "tests by match or matches!", by(r"matches!\(|=> (?:true|false),")),
    (4, "matches that do an Option's or a Result's method", by(r"^\s*(?:None|Err\(_\)) => (?:false|0|\{\}|None|used|Err\(AllocError\))|if let None|if let Some\(_\)")),
    (4, "fields copied one by one", by(r"^\s*(\w+): (?:row|self|o)\.\1,")),
    (4, "order by a chain of ifs", by(r"^\s*(?:\} else )?if [\w.]+ (?:<|!=) [\w.]+ \{")),
    (5, "parameters that three or more functions take together", together),
    (5, "clauses that stand in three or more contracts", clauses),
    (6, "arrays of a fixed length", by(r"\[[A-Z]\w*; ?\w+\]")),
    (6, "a slice lent with a place in it", by(r"(?:tape|rows|strip): &mut \[\w+\],\s*\w+: usize")),
    (6, "elements by an index", by(r"\w+\[[a-z]\w*(?: [-+%] \d+)?\]")),
    (7, "enums that say which step to run", by(r"\bMove::\w+")),
    (7, "function pointers and tables of functions", by(r"\bfn\(")),
    (8, "answers", answers),
]


def main():
    global TOP
    words = [w for w in sys.argv[1:] if w != "-v"]
    TOP = pathlib.Path(words[0] if words else ".").resolve()
    sources = [Source(TOP, p) for p in sorted(TOP.glob("crates/*/src/**/*.rt"))]
    for point, name, find in POINTS:
        places = list(find(sources))
        print(f"{point}  {len(places):4}  {name}")
        if "-v" in sys.argv:
            for place in places:
                print(f"            {place}")


main()
