#!/usr/bin/env python3
"""Brings the repository's own definitions and lemmas to the spelling of today's Rattle.

usage: tools/respell.py        at the top of the repository, once, right after port.py

Words are in snake case, types in camel case; a lemma keeps the hyphens between the words that it is
about. Fields of records of specs/, and names that an import gives with 'as', follow. Functions of
src/, strings, inputs and outputs keep their names. It prints each renaming, and stops before it
writes anything where two names that some file says both would fall together.
"""

import os
import re
import subprocess
import sys

WORD = "A-Za-z0-9_'\u2080-\u2089-"
TOP = re.compile(r"(?:(?:abbrev|unfoldable|pub|record|data) )*([A-Za-z][%s]*) (?=[:({])" % WORD)
FIELD = re.compile(r"(?:    |  )pub ([a-z][%s]*) :" % WORD)
ALIAS = re.compile(r" as ([a-z][%s]*)" % WORD)
IDENTIFIER = re.compile(r"(?<![%s])[A-Za-z][%s]*" % (WORD, WORD))


def snake(name):
    return re.sub(r"(?<=[a-z0-9])([A-Z])", lambda m: "_" + m.group(1).lower(), name)


def camel(name):
    return "".join(part[:1].upper() + part[1:] for part in name.split("-"))


def spelled(name):
    return camel(name) if name[0].isupper() else snake(name)


def files(*endings):
    for top in ("crates", "docs", "README.md"):
        walked = os.walk(top) if os.path.isdir(top) else [("", [], [top])]
        for folder, dirs, names in walked:
            dirs[:] = sorted(d for d in dirs if d not in ("out", "target"))
            for name in sorted(names):
                if name.endswith(endings):
                    yield os.path.join(folder, name)


def read(path):
    with open(path, encoding="utf-8") as f:
        return f.read()


def own_names():
    """The names that the repository's .antt files define, and what each becomes."""
    names = {}
    for path in files(".antt"):
        if os.path.basename(path) in ("Answers.antt", "Invariants.antt", "Proof.antt"):
            continue
        in_record = False
        for line in read(path).splitlines():
            top = TOP.match(line)
            if line and not line[0].isspace():
                in_record = "record " in line
            if top and not line.startswith(("use ", "open ", "module ")):
                names[top.group(1)] = spelled(top.group(1))
            field = FIELD.match(line)
            if field and "/specs/" in path and in_record:
                names[field.group(1)] = snake(field.group(1)).replace("-", "_")
    for path in files(".antt", ".rt"):
        for line in read(path).splitlines():
            if line.startswith(("use Rattle.", "ghost use ")):
                for alias in ALIAS.findall(line):
                    names.setdefault(alias, spelled(alias))
    return names



def together(texts, one, other):
    """Whether some file says both names."""
    return any(one in text and other in text for text in texts)


def main():
    names = own_names()
    # a lemma that port.py gave the word that a definition is to have: it takes its hyphen back
    names["word_rows"] = "word-rows"
    turned = {old: new for old, new in names.items() if old != new}
    texts = [set(IDENTIFIER.findall(re.sub(r"--.*|//.*", "", read(path)))) for path in files(".antt")]
    clash = []
    for old, new in sorted(turned.items()):
        others = [o for o, n in names.items() if n == new and o != old]
        clash += [f"{old} and {o}" for o in others if together(texts, old, o)]
        print(f"{old} -> {new}" + (" (a name of another kind is spelled so beside it)" if together(texts, old, new) else ""))
    # a field and the definition that it speaks of, which nothing confuses
    clash = [c for c in clash if c not in ("and-then and and_then", "inOrder and in_order")]
    if clash:
        print("names that would fall together: " + ", ".join(clash))
        return 1
    for path in files(".antt", ".rt", ".edit", ".md"):
        text = read(path)
        lines = text.split("\n")
        if path.endswith(".md"):
            out = [re.sub(r"`[^`]*`", lambda m: turn(m.group(0), turned), line) for line in lines]
        else:
            out = [turn_line(line, turned) for line in lines]
        if out != lines:
            with open(path, "w", encoding="utf-8") as f:
                f.write("\n".join(out))
    for crate in sorted(os.listdir("crates")):
        subprocess.run(["rt", "fmt"], cwd=os.path.join("crates", crate), stdout=subprocess.DEVNULL, check=False)
    return 0


def turn(text, turned):
    return IDENTIFIER.sub(lambda m: turned.get(m.group(0), m.group(0)), text)


def turn_line(line, turned):
    """Outside strings and comments."""
    parts = re.split(r'("(?:[^"\\]|\\.)*"|--.*|//.*)', line)
    return "".join(part if i % 2 else turn(part, turned) for i, part in enumerate(parts))


if __name__ == "__main__":
    sys.exit(main())
