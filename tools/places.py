#!/usr/bin/env python3
"""places.py [POINT] [-l]: how many places of each point of docs/DESIGN-PASS.md stand in crates/*/src, by what their lines look like; -l lists them.

A line counts once for a point, comments do not count. Point 2 counts functions whose text is that of another but for names of types, sizes and
constants; point 5 facts that stand in the clauses of three functions or more of one crate, and the clauses they stand in; point 8 counts proof files."""
import collections
import glob
import os
import re
import sys

LINES = {
    1: [
        r"\bnumber: u8\b",  # a number with values beside it, or handed on
        r"-> u8\b",  # a function that answers a number, or a bound's byte
        r"[!=]= (DONE|MORE|NO_RUN|BAD_MODE)\b",  # a number asked whether it is one
        r"\bNOWHERE\b|\bsize == 0|size_of\(\w+\) == 0",  # a value that stands for none
        r"^\s*(pub )?\w+: bool,",  # a flag beside values
    ],
    3: [r"\bwhile\b"],
    4: [
        r"\bas (u8|u16|u32|usize)\b",  # conversions
        r"[/%*] (256|65536|16777216)\b|(<<|>>) (8|16|24)\b",  # bytes of numbers and numbers of bytes
        r"b'0' \+|48 \+ |87 \+ ",  # digits
    ],
    6: [
        r"\bat: usize, out: &mut|\bat: usize, bytes|\bn: usize, out|out: &mut \[u8\], at|&mut out\[\w+\.\.\]",  # an output and how far it is filled
        r"starts: .*ends:|xs: .*(ends|places):|numbers: .*figures:|^\s*(starts|xs|streams|numbers): &",  # parallel arrays
        r"\[0u?\d*; [A-Z_]+\]|\[0u?\d*; \d+\]",  # fixed rooms
    ],
    7: [
        r"marking|match letter|letter ==",  # which step to run
        r"check == (CHECKING|WRITING)|mode == [A-Z_]+|fn task",  # by a byte of the place
    ],
}


def sources(crate="*"):
    return sorted(glob.glob(f"crates/{crate}/src/*.rt"))


def code(path):
    for n, line in enumerate(open(path), 1):
        line = line.rstrip("\n")
        if line.strip().startswith("//") or line.startswith("ghost use") or line.startswith("use "):
            continue
        yield n, line.split(" // ")[0]


def by_lines(point):
    for path in sources():
        for n, line in code(path):
            if re.match(r"\s*(requires|ensures|×)", line) or " ≡ " in line or " ≤ " in line:
                continue
            if any(re.search(p, line) for p in LINES[point]):
                yield path, n, line.strip()


def functions(path):
    text = "\n".join(line for _, line in code(path))
    for m in re.finditer(r"^ *(pub(\(crate\))? )?fn (\w+)[^\n]*\n(.*?)^( *)}$", text, re.M | re.S):
        yield m.group(3), m.group(0)


def twins():
    shapes = collections.defaultdict(list)
    for path in sources():
        for name, text in functions(path):
            body = text[text.find("{\n", text.rfind("ensures")) :] if "ensures" in text else text[text.find("{\n") :]
            body = re.sub(r"\b(u8|u16|u32|u64|usize)\b", "T", body)
            body = re.sub(r"\b\d+(u8|u16|u32|usize)?\b|\b[A-Z][A-Z_0-9]+\b", "N", body)
            words = re.findall(r"\w+|[^\w\s]", body)
            names = {}
            shape = " ".join(names.setdefault(w, f"v{len(names)}") if re.match(r"[a-z_]\w*$", w) and w not in KEEP else w for w in words)
            if len(words) >= 12:
                shapes[shape].append((path, name))
    for places in shapes.values():
        if len(places) > 1:
            for path, name in places:
                yield path, 0, f"{name} ~ " + ", ".join(f"{p.split('/')[1]}::{q}" for p, q in places if (p, q) != (path, name))


KEEP = {"let", "mut", "if", "else", "while", "for", "in", "return", "match", "fn", "as", "true", "false", "self"}


def facts():
    for crate in sorted({p.split("/")[1] for p in sources()}):
        seen = collections.defaultdict(set)
        for path in sources(crate):
            for name, text in functions(path):
                for clause in re.findall(r"requires[^{\n]*\{(.*?)\}\n", text, re.S):
                    for fact in re.split(r" × |\n", clause):
                        fact = fact.strip().strip("()")
                        fact = re.sub(r"\b\w+\.(old|now|new)\b", "x", fact)
                        if fact:
                            seen[fact].add((path, name))
        for fact, places in sorted(seen.items()):
            if len(places) >= 3:
                for path, name in sorted(places):
                    yield path, 0, f"{name}: {fact}"


def proofs():
    for path in sorted(glob.glob("crates/*/proofs/**/Answers.antt", recursive=True)):
        yield path, 0, f"{len(re.findall(r'^pub [^ ]+ : goal', open(path).read(), re.M))} answers, {len(open(path).readlines())} lines"


def places(point):
    return {2: twins, 5: facts, 8: proofs}.get(point, lambda: by_lines(point))()


def main():
    args = [a for a in sys.argv[1:] if a != "-l"]
    listed = "-l" in sys.argv
    os.chdir(os.path.join(os.path.dirname(os.path.abspath(__file__)), ".."))
    for point in [int(a) for a in args] or [1, 2, 3, 4, 5, 6, 7, 8]:
        found = list(places(point))
        crates = collections.Counter(p.split("/")[1] for p, _, _ in found)
        print(f"point {point}: {len(found)} places: " + ", ".join(f"{c} {n}" for c, n in sorted(crates.items())))
        if listed:
            for path, n, what in found:
                print(f"  {path}{':' + str(n) if n else ''}: {what}")


main()
