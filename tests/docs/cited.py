#!/usr/bin/env python3
"""Every place of the code that the documents cite is there, and every must-fail edit is cited. Run at the root.

A place is named as docs/READING.md says: `crate/File: name, name` a definition, `crate/proofs/File: name` a law, `crate/must-fail/edit` an edit,
`crate::module::function` a function, `crate::module::Type` a type and `crate::module::Type::function` a function of it, `crate/specs/File.antt` or `crate/src/file.rt` a file, `crate/proofs/name` a file or a folder of proofs.
"""
import glob
import os
import re
import sys

# a landing's page speaks of its own day, and so does that of the design pass, which has old signatures beside the new: they are not read
DOCS = ["README.md"] + sorted(set(glob.glob("docs/*.md")) - {"docs/DESIGN-PASS.md"})
CRATES = sorted(os.listdir("crates"))

# what a file of antt defines: a name before a colon at the start of a line or of a record's field, a data type, a record, a ruleset
DEFINED = re.compile(r"(?m)^\s*(?:abbrev |unfoldable |pub |record |data |ruleset )*([^\s:(){}]+)(?=[\s:({])")


def names(path):
    if not os.path.exists(path):
        return None
    return set(DEFINED.findall(open(path, encoding="utf-8").read()))


def missing(cited):
    """Why a cited place is not there, or None."""
    crate = re.match(r"(\w+)(/|::)", cited)
    if not crate or crate.group(1) not in CRATES:
        return None
    crate = crate.group(1)
    m = re.fullmatch(r"\w+/must-fail/(\w+)", cited)
    if m:
        return None if os.path.exists(f"crates/{cited}.edit") else "no such edit"
    m = re.fullmatch(r"\w+/((?:specs|proofs|src)/[\w/]+\.(?:antt|rt))", cited)
    if m:
        return None if os.path.exists(f"crates/{cited}") else "no such file"
    m = re.fullmatch(r"\w+/proofs/[\w/]+", cited)
    if m:
        return None if os.path.isdir(f"crates/{cited}") or os.path.exists(f"crates/{cited}.antt") else "no such file or folder"
    m = re.fullmatch(r"\w+/(proofs/)?([\w/]+): (.+)", cited)
    if m:
        path = f"crates/{crate}/{m.group(1) or 'specs/'}{m.group(2)}.antt"
        there = names(path)
        if there is None:
            return f"no file {path}"
        for name in re.split(r",\s*", m.group(3)):
            for part in name.strip().split("."):
                if part not in there:
                    return f"{path} has no {part}"
        return None
    m = re.fullmatch(r"\w+((?:::\w+)+)(?:\(.*\))?", cited)
    if m:
        parts = m.group(1).split("::")[1:]
        owner = next((part for part in parts[:-1] if part[0].isupper()), None)
        modules = [part for part in parts[:-1] if part != owner]
        files = [f"crates/{crate}/src/{'/'.join(modules) or 'lib'}.rt", f"crates/{crate}/src/main.rt"]
        text = "".join(open(f, encoding="utf-8").read() for f in files if os.path.exists(f))
        if owner:
            blocks = re.findall(rf"(?ms)^impl[^\n]*\b{owner}\b[^\n]*\{{\n.*?^\}}", text)
            if not blocks:
                return f"no impl of {owner} in {files[0]}"
            text = "".join(blocks)
        if not re.search(rf"\b(?:fn|struct|enum|const|mod|type)\s+{parts[-1]}\b", text):
            return f"no such function, type or constant in {files[0]}"
    return None


def main():
    wrong = []
    whole = ""
    for doc in DOCS:
        for number, line in enumerate(open(doc, encoding="utf-8"), 1):
            whole += line
            for cited in re.findall(r"`([^`]+)`", line):
                why = missing(cited)
                if why:
                    wrong.append(f"{doc}:{number}: `{cited}`: {why}")
    for edit in sorted(glob.glob("crates/*/must-fail/*.edit")):
        crate, name = edit.split("/")[1], os.path.basename(edit)[:-5]
        if f"{crate}/must-fail/{name}" not in whole:
            wrong.append(f"{edit}: cited in no document")
    print("\n".join(wrong) if wrong else f"documents: every place cited in {len(DOCS)} of them is there, and every must-fail edit is cited")
    return 1 if wrong else 0


if __name__ == "__main__":
    sys.exit(main())
