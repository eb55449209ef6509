#!/usr/bin/env python3
"""How many lines of definition a reader has: the tables of docs/READING.md, 'The count'. Run at the root.

Without a word it fails where the document says other numbers; with --write it puts the true ones in.
"""
import glob
import sys

DOC = "docs/READING.md"
BEGIN, END = "<!-- counted by tests/docs/count.py -->\n", "<!-- end of count -->\n"
CALLS = ["chain", "cells", "awaited", "machine", "saved", "closing", "hunt", "grammar", "writer", "reader", "lister", "tidy", "salvage", "eprom", "sheet"]
REST = ["at6000", "listing", "demands"]
PARTS = [
    ("no promise: contracts of private functions", ["chain/ByRow", "machine/Block", "closing/Put", "saved/Reads", "tidy/InOrder", "tidy/Steps", "salvage/Steps", "eprom/Steps", "sheet/Steps"]),
    ("demand 1", ["chain/WellFormed", "chain/Table", "chain/Bytes", "demands/Demand1", "demands/Formed", "demands/Table", "demands/ByteTable", "demands/ListTable", "demands/FetchTable", "demands/SheetTable"]),
    ("demands 2 and 3", ["grammar/Fits", "demands/Loader", "demands/Demand2", "demands/Files", "demands/Second", "demands/Demand3", "demands/Ours"]),
    ("wish 4", ["demands/WherePreamble"]),
    ("wish 8", ["demands/Shortest"]),
    ("wish 9", ["demands/Patches", "demands/WrittenOnce"]),
    ("wish 2", ["demands/OneFile"]),
    ("wish 12", ["demands/OldDisks"]),
    ("wish 1", ["demands/EpromBoards", "demands/EpromCounter", "demands/EpromStreams"]),
    ("the loaders shut out", ["demands/Wrong", "demands/WrongFetch", "demands/WrongSheet"]),
    ("the twelve cases", ["demands/Cases"]),
    ("the listing program", ["listing/Lines", "listing/Program"]),
    ("the calls in place", ["at6000/InPlace"]),
]


def kind(line):
    s = line.strip()
    if not s:
        return 4
    if s.startswith("--"):
        return 3
    return 2 if s.startswith("pub mod") else 1 if s.startswith("use ") else 0


def count(files):
    total = [0] * 5
    for f in files:
        for line in open(f, encoding="utf-8"):
            total[kind(line)] += 1
    return total


def row(name, numbers):
    return f"| {name} | " + " | ".join(map(str, numbers)) + " |\n"


def tables():
    text = "| Crate | Definition | `use` | `pub mod` | Comment | Blank |\n|---|---|---|---|---|---|\n"
    total = [0] * 5
    for crate in CALLS + REST:
        numbers = count(glob.glob(f"crates/{crate}/specs/**/*.antt", recursive=True))
        total = [a + b for a, b in zip(total, numbers)]
        text += row(f"`{crate}`", numbers)
        if crate == CALLS[-1]:
            text += row("all that the calls rest on", total)
            calls = total[0]
    text += row("all", total)
    text += "\nWhich of these are needed for what:\n\n| Part | Definition lines | Files |\n|---|---|---|\n"
    counted = {place: count([f"crates/{place.replace('/', '/specs/')}.antt"])[0] for _, places in PARTS for place in places}
    apart = sum(n for place, n in counted.items() if place.split("/")[0] in CALLS)
    text += f"| the promises of the calls | {calls - apart} | the crates before `at6000`, the files of the next three rows apart |\n"
    for part, places in PARTS:
        listed = ", ".join(f"`{p}` {counted[p]}" for p in places)
        text += f"| {part} | {sum(counted[p] for p in places)} more | {listed} |\n"
    return text


def main():
    doc = open(DOC, encoding="utf-8").read()
    start, end = doc.index(BEGIN) + len(BEGIN), doc.index(END)
    if "--write" in sys.argv:
        open(DOC, "w", encoding="utf-8").write(doc[:start] + tables() + doc[end:])
    elif doc[start:end] != tables():
        print(f"{DOC}: the count of definitions is out of step: python3 tests/docs/count.py --write")
        return 1
    return 0


if __name__ == "__main__":
    sys.exit(main())
