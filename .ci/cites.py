#!/usr/bin/env python3
"""Checks that what the documents cite is there: each file, each clause and call in a table of a crate, and each name of code.

A table whose last column is headed 'clause' or 'by the clauses' names clauses and functions of its crate, by words in backquotes.
"""

import glob
import os
import re
import sys

DOCUMENTS = ["README.md", *sorted(glob.glob("docs/*.md")), *sorted(glob.glob("crates/*/README.md"))]
FILE = re.compile(r"(?<![\w/.])((?:docs|crates|examples|\.ci)/[\w./-]*\w)")
OWN_FILE = re.compile(r"(?<![\w/])((?:specs|src|proofs)/[\w/]+\.(?:antt|rt))")
QUOTED = re.compile(r"`([^`]+)`")
NAME = re.compile(r"(?:\w+::)*(\w+)(?:\(\))?$")


def texts(pattern):
    found = []
    for path in sorted(glob.glob(pattern, recursive=True)):
        with open(path, encoding="utf-8") as file:
            found.append(file.read())
    return "\n".join(found)


def code_of(crate):
    return texts(f"crates/{crate}/src/**/*.rt")


def names_of(crate):
    """The clauses, functions and types that the crate's code has, and the fields of its records, whose names may be escaped."""
    code = code_of(crate)
    names = set(re.findall(r"\bensures\*? (\w+) \{", code))
    names |= set(re.findall(r"\b(?:fn|struct|enum|trait|const|mod|ghost) (\w+)", code))
    return names | set(re.findall(r"\bpub «?(\w+)»? :", texts(f"crates/{crate}/specs/**/*.antt")))


def columns(line):
    return [cell.strip() for cell in line.strip().strip("|").split("|")]


def names_in(cell):
    """The names of code in backquotes in a cell."""
    for quoted in QUOTED.findall(cell):
        name = NAME.match(quoted)
        if name:
            yield name.group(1)


def tables(lines):
    """Each row of each table, with its number, the head's cells and its own."""
    head = None
    for number, line in enumerate(lines, 1):
        if not line.startswith("|"):
            head = None
        elif head is None:
            head = columns(line)
        elif not set(line) <= set("|- :"):
            yield number, head, columns(line)


def crates_in(path, text):
    """The crate of a document, and those that a text names."""
    own = path.split("/")[1:2] if path.startswith("crates/") else []
    return [it for it in own + re.findall(r"\w+", text) if os.path.isdir(f"crates/{it}")]


def missing_files(path, line):
    """The files that a line of a document cites and that aren't there."""
    for name in FILE.findall(line):
        made_or_any = "/out" in name or "NAME" in name
        if not made_or_any and not os.path.exists(name):
            yield name
    folders = crates_in(path, line)
    for name in OWN_FILE.findall(line):
        if folders and not any(os.path.exists(f"crates/{it}/{name}") for it in folders):
            yield f"{name} of {' or '.join(folders)}"


def missing_names(path, lines):
    """The clauses and calls that a document's tables cite and that the crates don't have."""
    for number, head, cells in tables(lines):
        if head[-1] not in ("clause", "by the clauses", "clauses"):
            continue
        crates = crates_in(path, cells[0] + " " + cells[-1])
        known = set().union(*(names_of(it) for it in crates)) if crates else set()
        for name in names_in(cells[-1]):
            if crates and name not in known:
                yield number, name


def main():
    words = set()
    for folder in ("src/**/*.rt", "specs/**/*.antt", "proofs/**/*.antt"):
        words |= set(re.findall(r"\w+", texts(f"crates/*/{folder}")))
    faults, cited = [], 0
    for path in DOCUMENTS:
        with open(path, encoding="utf-8") as file:
            lines = file.read().split("\n")
        for number, line in enumerate(lines, 1):
            faults += [f"{path}:{number}: no file {name}" for name in missing_files(path, line)]
        faults += [f"{path}:{number}: no clause or call {name}" for number, name in missing_names(path, lines)]
        if path in ("README.md", "docs/CRATES.md", "docs/GUARANTEE.md", "docs/ARCHITECTURE.md", "docs/CONTRACTS.md", "docs/DECISIONS.md") or path.startswith("crates/wf_"):
            for number, line in enumerate(lines, 1):
                for name in names_in(line):
                    cited += 1
                    if re.fullmatch(r"[a-z]+(_[a-z0-9]+)+|[A-Z][a-z]+([A-Z][a-z0-9]+)+", name) and name not in words and not os.path.isdir(f"crates/{name}"):
                        faults.append(f"{path}:{number}: no such name {name}")
    for fault in sorted(set(faults)):
        print(fault)
    print(f"cites: {len(DOCUMENTS)} documents, {cited} names, {len(set(faults))} faults")
    return 1 if faults else 0


if __name__ == "__main__":
    sys.exit(main())
