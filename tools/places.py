#!/usr/bin/env python3
"""Lists the places in crates/*/src that could take a newer form, by the point that names it.

Run at the top of the repository: `tools/places.py` prints the counts, `tools/places.py N` each place of point N.
It goes by text: a line that it prints is a place to look at, not yet one to change.
"""
import collections
import glob
import re
import sys

FILES = sorted(glob.glob("crates/*/src/**/*.rt", recursive=True))
LINES = {f: open(f, encoding="utf-8").read().split("\n") for f in FILES}

# What a line of code has to match to be a place of the point.
BY_LINE = {
    "1": [
        r"^(pub(\(crate\))? )?enum ",  # each enum: is it an Option or a Result of its own?
        r"^    (pub(\(crate\))? )?\w+: bool,",  # a flag in a struct
        r"^    (pub(\(crate\))? )?fn \w+.*&mut .*-> bool\b",  # a step that tells by a flag how it went
        r"-> \(.*Result<",  # a value beside a verdict
        r"Result<Option<",  # two kinds of failure, one in the other
        r"^\s*(pub )?(number|mode): (u8|usize)|match mode|^\s*\d+ =>",  # numbers for kinds
        r"return Ok\((None|Outcome::\w+)|^\s+Ok\(Outcome::(Misuse|Refused)",  # a failure that is told as a success
    ],
    "3": [r"^\s*(while|loop)\b", r"^\s*for .* in .*\.\.", r"^\s*for \(\w+, \w+\) in"],
    "4": [
        r"^impl.*\b(Clone|Copy|PartialEq|Eq|PartialOrd|Ord|Hash|Debug|From(<.*>)?|TryFrom(<.*>)?|fmt::Display) for",
        r"=> (out\.write_all\(b)?\"",  # words for a kind, in a match
        r"\bif (run|other)\.\w+ [!=]= (run|other)\.",  # compared field by field
        r"Err\(_\) =>",  # a conversion matched by hand
    ],
    "6": [r"^    (pub(\(crate\))? )?len: usize", r"\.get\(", r"Vec<Vec<", r"^const \w+: \[", r"\.zip\("],
    "7": [r"^\s*(let \w+ = )?match (command\.)?verb\b", r"\bfn\(", r"\bdyn\b", r"matches!\(.*verb"],
}


def code(f):
    """The lines of a file without comments, each with its number."""
    return [(n, line) for n, line in enumerate(LINES[f], 1) if not line.lstrip().startswith("//")]


def by_line(point):
    return [
        f"{f}:{n}: {line.strip()}"
        for f in FILES
        for n, line in code(f)
        if any(re.search(p, line) for p in BY_LINE[point])
    ]


def signatures(f):
    """Each function of a file: its line, its name, its parameters, and its clauses."""
    text = "\n".join(line if not line.lstrip().startswith("//") else "" for line in LINES[f])
    for m in re.finditer(r"\bfn (\w+)(?:<[^{(]*?>)?\(([^{]*?)\)(?: ->[^{]*?)?\s*((?:\n\s+(?:requires|ensures)[^\n]*)*)\n?\s*\{", text):
        yield text.count("\n", 0, m.start()) + 1, m.group(1), m.group(2), m.group(3)


def normal(clause):
    """A clause with the names of variables, types and sizes left out."""
    clause = re.sub(r"^(requires|ensures)\s*\w*\s*\{", "", clause.strip())
    return re.sub(r"\b(\w+)\.(old|new|now|entry)\b", "x", clause)


def repeated():
    """Facts that stand in the contracts of three functions or more, and parameters that travel together in as many."""
    facts, travel = collections.defaultdict(set), collections.defaultdict(set)
    for f in FILES:
        for n, name, params, clauses in signatures(f):
            place = f"{f}:{n}: {name}"
            for clause in clauses.strip().split("\n"):
                if "{" in clause:
                    shape = re.sub(r"(≡ ).*", r"\1..", normal(clause)) if "RowSink" in clause else normal(clause)
                    facts[shape].add(place)
            names = re.findall(r"(\w+): ", params)
            for i, a in enumerate(names):
                for b in names[i + 1 :]:
                    travel[(a, b)].add(place)
    out = [f"{len(p)} functions, the fact {shape}" for shape, p in facts.items() if len(p) >= 3]
    out += [f"{len(p)} functions, the parameters {a} and {b}" for (a, b), p in travel.items() if len(p) >= 3]
    return sorted(out, key=lambda s: -int(s.split()[0]))


def twins():
    """Functions and types of one shape, when names of types, numbers and words are left out."""
    shapes = collections.defaultdict(list)
    for f in FILES:
        text = "\n".join(line for _, line in code(f))
        for m in re.finditer(r"(?ms)^( *)(?:pub(?:\(crate\))? )?(fn|struct) (\w+).*?^\1\}", text):
            body = re.sub(r"(?m)^\s*(requires|ensures|ghost) .*$", "", m.group(0))
            if body.count("\n") < 3:
                continue
            shape = re.sub(r"\b[A-Z]\w*|\b\w*(mask|run|byte|row|slot|range)\w*|[0-9]\w*", "_", body)
            shapes[re.sub(r"\s+", " ", shape.replace(m.group(3), "_"))].append(f"{f}: {m.group(3)}")
    return ["  ".join(p) for p in shapes.values() if len(p) > 1]


def proofs():
    """The answers and lemmas of each crate, by lines."""
    out = []
    for crate in sorted(glob.glob("crates/*/")):
        files = glob.glob(crate + "proofs/**/*.antt", recursive=True)
        lines = sum(len(open(f, encoding="utf-8").read().split("\n")) - 1 for f in files)
        if files:
            out.append(f"{crate}proofs: {len(files)} files, {lines} lines")
    return out


def places(point):
    return {"2": twins, "5": repeated, "8": proofs}.get(point, lambda: by_line(point))()


if __name__ == "__main__":
    if len(sys.argv) > 1:
        print("\n".join(places(sys.argv[1])))
    else:
        for point in "12345678":
            print(f"{point}: {len(places(point))}")
