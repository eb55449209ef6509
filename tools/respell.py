#!/usr/bin/env python3
"""Spells this repository's own names as Rattle's library spells its own. Run once, at the top, after the kit's port script:

    python3 tools/respell.py [--table]      --table prints the rows (old, a tab, new) and writes nothing

A word (a definition) is in snake case: camel case, a middle dot and a dash become an underscore. In a lemma's name a dash stays where it joins two words, and
becomes an underscore where it adds a plain one. Modules are in camel case. A name that Rattle makes for a goal is none of ours and stays, and so do names of src/.
Two names that would fall together, or a new name that a file has already for something else, keep the old spelling and are printed.
"""
import os, re, subprocess, sys

NAME = r"[^\s(){}.,;:@\"«»]+"
DECL = re.compile(rf"^ *(?P<head>(?:(?:abbrev|unfoldable|pub) )*)(?P<name>{NAME})(?:\s*(?:\{{[^}}\n]*\}}|\([^)\n]*\)))*\s*:(?:\s|$)")
HEAD = re.compile(rf"^(?:pub )?(?:record|data)(?: pub)? (?P<name>{NAME}) ")
QUIET = re.compile(r"--[^\n]*")
TOKEN = re.compile(r"[^\s(){}.,;@\"«»\x60\[\]|]+")
# what the library joins by a dash beside words of its own
LIBRARY = set("le lt eq ne suc zero add sub mul div mod min max length take drop append map set sets get_or all any not and or reverse sum nil cons put put_mid".split())
# words that would fall together with another
HAND = {
    "badChain": "is_bad_chain",
    "badEnd": "is_bad_end",
    "badStart": "is_bad_start",
    "illFormed": "is_ill_formed",
    "wellFormed": "is_well_formed",
    "atPreamble": "row_at_preamble",
    "atSecond": "row_at_second",
    "atControl": "row_at_control",
    "atEnd": "fetcher_at_end",
    "noWindows": "without_windows",
    "section-of": "section_with",
    "zero-nulls": "nulls_zero",
    "other-order": "in_other_order",
    "goes_on": "keeps_going",
    "closed-place": "is_closed",
    "get_d_any": "get_or-put_any",
    "getD-put": "get_or-put",
    "getD-putAll": "get_or-put_all",
    "byRow": "formed_by_row",
    "fromOne": "counts_from_one",
}
# the page that is read first: plain phrases
MAIN = {
        "loads-and-checks": "loads_and_checks",
        "serial-stop": "serial_stop",
        "check-leaves": "check_leaves",
        "all-accepted": "all_accepted",
        "stream-tidied": "stream_tidied",
        "no-other-bytes": "no_other_bytes",
        "one-meaning-one-file": "one_meaning_one_file",
        "stream-mended": "stream_mended",
        "same-stream": "same_stream",
        "accepted-at-end": "accepted_at_end",
        "every-stop-fetched": "every_stop_fetched",
        "one-by-hand": "one_by_hand",
        "distinct-cells": "distinct_cells",
        "figures-of-a-row": "figures_of_a_row",
        "made-up-count": "made_up_count",
        "constant-answer": "constant_answer",
        "check-writes": "writes_on_check",
        "earlier-wins": "lets_earlier_win",
        "closing-short": "closing_short",
        "offsets-first": "offsets_first",
        "wiping-apart": "wiping_apart",
        "offsets-written": "offsets_written",
        "counts-announced": "counts_announced",
        "offset-taken": "offset_taken",
        "every-null": "jumps_every_null",
        "never-home": "stays_from_home",
        "home-past": "homes_past",
        "stores-again": "counts_again",
        "cells-for-bits": "takes_cells_for_bits",
        "counts-closing": "counts_closing",
        "leaves-p-out": "leaves_p_out",
        "idle-accepted": "idles_accepted",
        "left-before": "tells_left_before",
        "told-refused": "tells_refused",
}
# the same, in these folders alone
THERE = {"crates/demands/proofs/salvage/": {"badEnd": "bad_end_stream", "badStart": "bad_start_stream"}, "crates/demands/proofs/wrong/Salvagers.antt": {"badStart": "bad_start_stream"}, "crates/demands/proofs/Main.antt": MAIN, "crates/demands/proofs/eprom/CounterWay.antt": {"at_null": "null_next"}}
MADE = re.compile(r"\b(?:goal|tie|c|w)$")


def files():
    for d, dirs, fs in os.walk("crates"):
        dirs[:] = sorted(x for x in dirs if x != "out")
        for f in sorted(fs):
            if f.endswith((".antt", ".rt", ".edit")):
                yield os.path.join(d, f)


def snake(part):
    if part[:1].isupper():
        return part
    return re.sub(r"(?<=[a-z0-9])([A-Z]+)", lambda m: "_" + m[1].lower(), part)


def declared():
    words, lemmas, labels = set(), set(), set()
    for p in files():
        if not p.endswith(".antt") or os.path.basename(p) in ("Proof.antt", "Answers.antt", "Invariants.antt"):
            continue
        for line in open(p, encoding="utf-8"):
            m = DECL.match(line)
            if m and m["name"] not in ("use", "mod", "where") and not line.startswith("use "):
                (words if "abbrev" in m["head"] or "unfoldable" in m["head"] else lemmas).add(m["name"])
                if line[0] == " " and "/specs/" in p:
                    labels.add(m["name"])
            m = HEAD.match(line)
            if m:
                words.add(m["name"])
    return words, lemmas, labels


def table():
    words, lemmas, labels = declared()
    spelled = {w: "_".join(snake(x) for x in re.split(r"[·-]", w)) for w in words}
    known = set(spelled.values()) | LIBRARY
    for name in lemmas - words:
        parts = [snake(x) for x in re.split(r"[·-]", name)]
        chunks, at = [], 0
        while at < len(parts):
            end = next((e for e in range(len(parts), at, -1) if "_".join(parts[at:e]) in known), at + 1)
            chunks.append("_".join(parts[at:end]))
            at = end
        out = chunks[0]
        for a, b in zip(chunks, chunks[1:]):
            out += ("-" if a in known and b in known else "_") + b
        spelled[name] = out
    # a label of a type: a field, or a constructor
    spelled.update({w: "_".join(snake(x) for x in re.split(r"[·-]", w)) for w in labels})
    return {o: n for o, n in spelled.items() if o != n}, words | lemmas


def code_of(path, text):
    if path.endswith(".antt"):
        return re.sub(r"\bRattle(?:\.[^\s.{}]+)+", " ", QUIET.sub(" ", text))
    if path.endswith(".edit"):
        return ""
    return " ".join(text[a:b] for a, b in clauses(text))


CLAUSE = re.compile(r"(?:requires|ensures)\s*\*?\s*(?:\w+\s*)?\{|ghost\s*(?:\w+\s*(?::\s*)?)?\{|ghost use [^;]*;", re.S)


def clauses(text):
    """Where a source's clauses and ghost imports begin and end."""
    at = 0
    for m in CLAUSE.finditer(text):
        if m.start() < at:
            continue
        end = m.end()
        if m[0].endswith("{"):
            depth = 1
            while depth:
                depth += (text[end] == "{") - (text[end] == "}")
                end += 1
        yield m.start(), end
        at = end


def main():
    words = declared()[0]
    rows, own = table()
    texts = {p: open(p, encoding="utf-8").read() for p in files()}
    stays = {}
    back = {}
    rows.update({o: n for o, n in HAND.items() if o in own})
    # a lemma that has by now the name that a word gets
    for n in sorted({rows[o] for o in words if o in rows} & (own - words)):
        rows.setdefault(n, n + "_lem")
    for o, n in sorted(rows.items(), key=lambda r: (r[0] not in words, r[0])):
        if n in back or (n in own and n not in rows):
            stays[o] = f"falls together with {back.get(n, n)}"
        else:
            back[n] = o
    for p, t in texts.items():
        have = set(TOKEN.findall(code_of(p, t))) - {o for d, r in THERE.items() if p.startswith(d) for o in r}
        for o in have & set(rows):
            if rows[o] in have and o not in stays and rows[o] not in rows:
                stays[o] = f"{rows[o]} stands in {p}"
    # a lemma that would have a word's name
    for o in list(stays):
        for n in (rows[o] + "_lem",):
            if n != o and n not in back and n not in own and not any(n in set(TOKEN.findall(code_of(p, t))) for p, t in texts.items() if o in t):
                rows[o] = n
                back[n] = o
                del stays[o]
                break
    for o, why in sorted(stays.items()):
        print(f"stays: {o}: {why}", file=sys.stderr)
        del rows[o]
    if "--table" in sys.argv:
        print("\n".join(f"{o}\t{n}" for o, n in sorted(rows.items())))
        return
    mods = {}
    for p in texts:
        d, b = os.path.split(p)
        if "/proofs/" in p + "/" and b[:1].islower() and b.endswith(".antt"):
            mods[b[:-5]] = b[:1].upper() + b[1:-5]

    def turn(text, skip_dashed=False):
        def one(m):
            w = m[0]
            before = text[max(0, m.start() - 40) : m.start()]
            if before.endswith(".") and "-" in w and MADE.search(before[:-1]):
                return w
            if skip_dashed and "-" in w:
                return w
            bare = w.rstrip("'")
            if w in rows:
                return rows[w]
            # a name at the end of a type argument, such as  name:
            if w.endswith(":") and w[:-1] in rows:
                return rows[w[:-1]] + ":"
            return w

        return TOKEN.sub(one, text)

    def paths(text):
        for m, n in mods.items():
            text = re.sub(rf"(Rattle\.\w+\.proofs\.){m}(?=\.[A-Z])", rf"\g<1>{n}", text)
            text = re.sub(rf"(?m)^((?:pub )?mod ){m}$", rf"\g<1>{n}", text)
        return text

    def rt(text):
        out, at = "", 0
        for start, end in clauses(text):
            out += turn(text[at:start], True) + turn(text[start:end])
            at = end
        return out + turn(text[at:], True)

    changed = 0
    plain = rows
    for p, t in texts.items():
        rows = plain | next((r for d, r in THERE.items() if p.startswith(d)), {})
        if p.endswith(".rt"):
            new = rt(t)
        elif p.endswith(".edit"):
            new = turn(t) if "\nfile: specs/" in "\n" + t or "\nfile: proofs/" in "\n" + t else turn(t, True)
        else:
            new = turn(t)
        new = paths(new)
        if new != t:
            changed += 1
            open(p, "w", encoding="utf-8").write(new)
    for d, dirs, fs in list(os.walk("crates")):
        if d.endswith("/proofs"):
            for f in fs:
                if f[:1].islower() and f.endswith(".antt") and f[:-5] in mods:
                    subprocess.run(["git", "mv", f"{d}/{f}", f"{d}/{mods[f[:-5]]}.antt"], check=True)
            for x in dirs:
                if x in mods and os.path.exists(f"{d}/{mods[x]}.antt"):
                    subprocess.run(["git", "mv", f"{d}/{x}", f"{d}/{mods[x]}"], check=True)
    docs = [os.path.join(d, f) for d, _, fs in os.walk("docs") for f in fs if f.endswith(".md")] + ["README.md"]
    for p in docs:
        t = open(p, encoding="utf-8").read()
        new = re.sub(r"`[^`\n]+`", lambda m: turn(m[0]), t)
        new = re.sub(r"(crates/\w+/proofs/)(\w+)(?=[./])", lambda m: m[1] + mods.get(m[2], m[2]), new)
        if new != t:
            open(p, "w", encoding="utf-8").write(new)
            changed += 1
    print(f"{len(rows)} names, {changed} files")


if __name__ == "__main__":
    main()
