#!/usr/bin/env python3
"""Measures what the commands of a script take, and writes the table of docs/SPEED.md.

Run at the top of the repository, once `rt run </dev/null` in crates/script has built the driver.
`tools/rates.py` prints the table, `tools/rates.py --write` puts it into docs/SPEED.md.

A script makes selections once and gives one command N times. What a command takes is the processor time of this
script less that of the script without the command, by N. Of each script the quickest of some runs counts.
"""
import argparse
import datetime
import functools
import math
import os
import pathlib
import re
import resource
import shlex
import subprocess
import sys

ROOT = pathlib.Path(__file__).resolve().parent.parent
DRIVER = ROOT / "crates/script/out/script"
PAGE = ROOT / "docs/SPEED.md"
BEGIN, END = "<!-- tools/rates.py writes from here -->\n", "<!-- to here -->\n"

# The difference of two runs is to be at least so many seconds, where no more than so many turns make it.
LEAST = 0.4
MOST = 1_000_000
PAGES = 1000

# Ragged rows change their mark after 2 rows, smooth ones after 128, both on average.
KINDS = {"ragged": {"mode": 0, "longest": 3, "mean": 2}, "smooth": {"mode": 1, "longest": 255, "mean": 128}}

# The selections that commands are given: masks in capitals, runs in small letters. A and a have the same rows, B and
# b, N and n, C and D. C begins at bit 3 of its bytes. N has as many rows as A selects, E none. R and S take results.
MAKE = {
    "A": ["fillmask {A} 1 {rows} 0 {mode}"],
    "B": ["fillmask {B} 2 {rows} 0 {mode}"],
    "C": ["fillmask {C} 2 {rows} 3 {mode}"],
    "D": ["fillmask {R} 2 {rows} 3 {mode}", "convert {D} {R} m {bytes}"],
    "N": ["fillmask {N} 3 {selected} 0 {mode}"],
    "a": ["fillmask {R} 1 {rows} 0 {mode}", "convert {a} {R} r {rows}"],
    "b": ["fillmask {R} 2 {rows} 0 {mode}", "convert {b} {R} r {rows}"],
    "n": ["fillmask {R} 3 {selected} 0 {mode}", "convert {n} {R} r {rows}"],
    "E": ["mask {E} 0 0 -"],
}
SLOTS = {name: slot for slot, name in enumerate([*MAKE, "R", "S"])}

# What a row of the table says; the selections that the command needs; the command. Then how many times the rows it
# gives or goes through, where that tells something, and how many masks it reads and writes by words or by bytes.
CASES = [
    ("`rows` of no rows", "E", "rows {E}", 0, 0),
    ("`fillmask`", "", "fillmask {R} 1 {rows} 0 {mode}", 1, 1),
    ("`fillruns`", "", "fillruns {R} {rows} 1 {count} {longest}", 1, 0),
    ("`copy`, mask", "A", "copy {R} {A}", 1, 2),
    ("`copy`, runs", "a", "copy {R} {a}", 1, 0),
    ("`convert`, mask to mask", "A", "convert {R} {A} -", 1, 2),
    ("`convert`, mask from bit 3 on to mask", "C", "convert {R} {C} m {bytes}", 1, 2),
    ("`convert`, mask to runs", "A", "convert {R} {A} r {rows}", 1, 0),
    ("`convert`, runs to mask", "a", "convert {R} {a} m {bytes}", 1, 0),
    ("`convert`, runs to runs", "a", "convert {R} {a} -", 1, 0),
    ("`andthen`, masks to mask", "AN", "andthen {R} {A} {N} -", 1, 0),
    ("`andthen`, masks to runs", "AN", "andthen {R} {A} {N} r {rows}", 1, 0),
    ("`andthen`, runs", "an", "andthen {R} {a} {n} -", 1, 0),
    ("`andthen`, runs and mask to runs", "aN", "andthen {R} {a} {N} -", 1, 0),
    ("`and`, masks", "AB", "and {R} {A} {B} -", 1, 3),
    ("`and`, masks from bits 0 and 3 on", "AC", "and {R} {A} {C} -", 1, 3),
    ("`and`, masks to runs", "AB", "and {R} {A} {B} r {rows}", 1, 0),
    ("`and`, runs", "ab", "and {R} {a} {b} -", 1, 0),
    ("`and`, mask and runs to runs", "Ab", "and {R} {A} {b} -", 1, 0),
    ("`and`, mask and runs to mask", "Ab", "and {R} {A} {b} m {bytes}", 1, 0),
    ("`or`, masks", "AB", "or {R} {A} {B} -", 1, 3),
    ("`or`, masks from bits 0 and 3 on", "AC", "or {R} {A} {C} -", 1, 3),
    ("`or`, runs", "ab", "or {R} {a} {b} -", 1, 0),
    ("`or`, mask and runs to runs", "Ab", "or {R} {A} {b} -", 1, 0),
    ("`join`, masks", "AB", "join {R} {A} {B} -", 2, 4),
    ("`join`, masks from bits 3 and 0 on", "CB", "join {R} {C} {B} -", 2, 4),
    ("`join`, runs", "ab", "join {R} {a} {b} -", 2, 0),
    ("`split` in the middle, mask", "A", "split {S} {R} {half} - -", 1, 2),
    ("`split` in the middle, runs", "a", "split {S} {R} {half} - -", 1, 0),
    ("`offset` by half of the selected, mask", "A", "offset {R} {mid} -", 1, 0),
    ("`offset` by half of the selected, runs", "a", "offset {R} {mid} -", 1, 0),
    ("`limit` to half of the selected, mask", "A", "limit {R} {mid} -", 0.5, 0),
    ("`limit` to half of the selected, runs", "a", "limit {R} {mid} -", 0.5, 0),
    ("`trim`, mask", "A", "trim {R} -", 1, 2),
    ("`trim`, runs", "a", "trim {R} -", 1, 0),
    ("`count`, mask", "A", "count {A}", 1, 1),
    ("`count`, runs", "a", "count {a}", 0, 0),
    ("`sum`, mask", "A", "sum {A}", 1, 0),
    ("`sum`, runs", "a", "sum {a}", 1, 0),
    ("`eq` of the same rows, masks", "A", "eq {A} {A}", 1, 2),
    ("`eq` of the same rows, masks from bits 3 and 0 on", "CD", "eq {C} {D}", 1, 2),
    ("`eq` of the same rows, runs", "a", "eq {a} {a}", 1, 0),
    ("`eq` of the same rows, mask and runs", "Aa", "eq {A} {a}", 1, 0),
    ("`strategy` at threshold 1, mask", "A", "strategy {A} 1", 1, 0),
    ("`strategy` at threshold 1, runs", "a", "strategy {a} 1", 1, 0),
    ("`strategy` at threshold 32, mask", "A", "strategy {A} 32", 0, 0),
    ("`strategy` at threshold 32, runs", "a", "strategy {a} 32", 0, 0),
    ("`nth`, half of the selected", "A", "nth {A} {mid}", 0.5, 0.5),
    ("`nth`, all of the selected", "A", "nth {A} {selected}", 1, 1),
    ("`scan` of no rows", "E", "scan {E} {rows} {pages}", 0, 0),
    ("`scan`, mask", "A", "scan {A} {rows} {pages}", 1, 0),
    ("`scan`, runs", "a", "scan {a} {rows} {pages}", 1, 0),
    ("`pagerows`, mask", "A", "pagerows {A} {rows} {rows} {pages}", 1, 0),
    ("`pagerows`, runs", "a", "pagerows {a} {rows} {rows} {pages}", 1, 0),
]
# These write the slot that they read, so that a copy goes before each.
IN_PLACE = ("split", "offset", "limit", "trim")


def answers(lines):
    """The processor time that the driver takes for a script, and its answers."""
    before = resource.getrusage(resource.RUSAGE_CHILDREN)
    run = subprocess.run([DRIVER], input="".join(f"{line}\n" for line in lines), capture_output=True, text=True)
    after = resource.getrusage(resource.RUSAGE_CHILDREN)
    told = run.stdout.splitlines()
    if run.returncode or len(told) != len(lines) or any(a.startswith(("misuse", "refused")) for a in told):
        sys.exit(f"rates.py: the driver did not do {lines[-1][:60]}: {run.stdout[-200:]}{run.stderr}")
    return after.ru_utime + after.ru_stime - before.ru_utime - before.ru_stime, told


@functools.cache
def quickest(tries, made, turn, n):
    """The time of a script that makes selections and then takes a turn n times."""
    return min(answers([*made, *turn * n])[0] for _ in range(tries))


def cost(tries, made, before, command):
    """The time of one command, before which another line goes each time."""

    def spent(n):
        return quickest(tries, made, (*before, command), n) - quickest(tries, made, before, n if before else 0)

    n = 1
    while (all_of_them := spent(n)) < LEAST and n < MOST:
        n = min(MOST, 100 * n, int(1.2 * n * LEAST / max(all_of_them, 0.001)) + 1)
    return all_of_them / n


def values(rows, kind):
    """What stands in the commands for one kind of rows, and what is said of these rows."""
    known = {**SLOTS, **kind, "rows": rows, "bytes": rows // 8, "half": rows // 2, "count": rows // kind["mean"]}
    known["pages"] = " ".join(f"{4096 * i} 4096 {rows * i // PAGES}" for i in range(PAGES))
    told = answers([MAKE["A"][0].format(**known), "sum {A}".format(**known)])[1][-1].split()
    selected, runs = int(told[2]), int(told[3])
    return known | {"selected": selected, "mid": selected // 2}, f"{selected:,} are selected, in {runs:,} runs"


def three_digits(x):
    """A number with three digits, or with all that stand before the point."""
    return f"{x:,.{max(0, 2 - math.floor(math.log10(x)))}f}"


def cells(tries, known, needs, command, times, masks):
    """The time of a command, the rate of rows and that of bytes."""
    made = tuple(line.format(**known) for name in needs for line in MAKE[name])
    before = (f"copy {known['R']} {known[needs]}",) if command.startswith(IN_PLACE) else ()
    spent = cost(tries, made, before, command.format(**known))
    rows = three_digits(times * known["rows"] / spent / 1e6) if times else ""
    size = three_digits(masks * known["rows"] / 8 / spent / 1e9) if masks else ""
    return [three_digits(1000 * spent), rows, size]


def table(args):
    """The lines of the table, and before them what was measured where."""
    kinds = {name: values(1 << args.log, kind) for name, kind in KINDS.items()}
    processors = re.findall(r"model name\s*: (.*)", pathlib.Path("/proc/cpuinfo").read_text(encoding="utf-8"))
    chip = f"{', '.join(processors[:1])}, {os.cpu_count()} cores"
    yield f"- {chip}, with a load of {os.getloadavg()[0]:.2f} before; {datetime.date.today()}"
    yield f"- `{shlex.join(['tools/rates.py', *sys.argv[1:]])}`: {1 << args.log:,} rows"
    yield from (f"- {name}: {said}" for name, (_, said) in kinds.items())
    yield ""
    yield "| Command | " + " | ".join(f"{name}: ms | 10^6 rows/s | GB/s of masks" for name in kinds) + " |"
    yield "|---|" + "--:|" * 3 * len(kinds)
    for what, *case in CASES:
        if args.only in what:
            told = [cell for known, _ in kinds.values() for cell in cells(args.tries, known, *case)]
            print(what, *told, file=sys.stderr)
            yield f"| {what} | " + " | ".join(told) + " |"


def main():
    ask = argparse.ArgumentParser(description=__doc__, formatter_class=argparse.RawDescriptionHelpFormatter)
    ask.add_argument("--log", type=int, default=24, help="the rows, as a power of two (24)")
    ask.add_argument("--tries", type=int, default=5, help="of how many runs the quickest counts (5)")
    one = ask.add_mutually_exclusive_group()
    one.add_argument("--only", default="", help="only the rows of the table that hold this text")
    one.add_argument("--write", action="store_true", help="put the table into docs/SPEED.md")
    args = ask.parse_args()
    text = "".join(f"{line}\n" for line in table(args))
    if not args.write:
        sys.stdout.write(text)
        return
    head, rest = PAGE.read_text(encoding="utf-8").split(BEGIN)
    PAGE.write_text(head + BEGIN + text + END + rest.split(END)[1], encoding="utf-8")


main()
