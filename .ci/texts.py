#!/usr/bin/env python3
"""Checks how the documents are written, by crates.txt where they speak of crates.

- README.md has at most 110 lines of at most 100 columns. It names each crate, and each of the kit's libraries that a crate uses.
- The picture of docs/ARCHITECTURE.md has each crate once, in its group; a crate stands on those that are further in below it.
- docs/DECISIONS.md tells how long the longest chain of libraries is.
- crates/*/README.md begins with its group and the crates below and above it. `--write` writes these lines.
- A sentence of PLAIN has at most 25 words. It ends with `.`, `!`, `?` or `;`; what stands in backquotes is one word, a crate's name none, and an
  item or a cell a text of its own.
"""

import os
import re
import sys

PLAIN = ("README.md", "docs/LANGUAGE.md", "docs/ARCHITECTURE.md", "docs/DECISIONS.md", "docs/MOVING.md", "docs/OPERATING.md")
LINES, COLUMNS, WORDS = 110, 100, 25
NUMBERS = "no one two three four five six seven eight nine ten eleven twelve thirteen fourteen fifteen sixteen".split()
PICTURED = re.compile(r"    (?P<indent> +)(?P<names>\w+(?:, \w+)*) {2}")


def read(path):
    with open(path, encoding="utf-8") as file:
        return file.read()


class Crates:
    """The crates of crates.txt with their groups, and what stands below and above each."""

    def __init__(self):
        self.group, self.uses, group = {}, {}, None
        for line in read("crates.txt").splitlines():
            if line.startswith("# ") and not line.startswith("# Each"):
                group = line[2:].partition(" (")[0].strip()
            elif line and not line.startswith("#"):
                name, _, used = line.partition(":")
                self.group[name], self.uses[name] = group, used.split()

    def below(self, name):
        return [it for it in self.uses[name] if it in self.uses]

    def above(self, name):
        return [it for it in self.uses if name in self.uses[it]]

    def of_the_kit(self):
        return sorted({it for used in self.uses.values() for it in used if it not in self.uses})

    def head(self, name):
        """The line with which the README of a crate begins, behind its title."""
        below, above = (", ".join(it) or "nothing" for it in (self.below(name), self.above(name)))
        return f"Group: {self.group[name]}. Below: {below}. Above: {above}."

    def longest_chain(self):
        """The longest chain of libraries, each on the one before."""
        chains = {}

        def chain(name):
            if name not in chains:
                chains[name] = max((chain(it) for it in self.below(name)), key=len, default=[]) + [name]
            return chains[name]

        # (a program isn't a library, and nothing stands on it)
        return max((chain(it) for it in self.uses if self.above(it) or it.startswith("wf_")), key=len)


def readme_faults(crates):
    lines = read("README.md").splitlines()
    if len(lines) > LINES:
        yield f"README.md: {len(lines)} lines, of which there may be {LINES}"
    for number, line in enumerate(lines, 1):
        if len(line) > COLUMNS:
            yield f"README.md:{number}: {len(line)} columns, of which there may be {COLUMNS}"
    words = set(re.findall(r"\w+", "\n".join(lines)))
    for name in [*crates.uses, *crates.of_the_kit()]:
        if name not in words:
            yield f"README.md: {name} isn't named"


def picture_faults(crates):
    """What the picture has otherwise than crates.txt."""
    group, seen, stack = None, [], []
    for line in read("docs/ARCHITECTURE.md").partition("In a picture")[2].splitlines():
        if not line.startswith("    "):
            if line and seen:
                break
            continue
        pictured = PICTURED.match(line)
        if not pictured:
            group, stack = line.strip().partition(":")[0], []
            continue
        indent, names = len(pictured["indent"]), pictured["names"].split(", ")
        stack = [it for it in stack if it[0] < indent]
        for name in names:
            seen.append(name)
            if crates.group.get(name) != group:
                yield f"docs/ARCHITECTURE.md: {name} is pictured in {group}, and is of {crates.group.get(name)}"
            elif stack and name not in crates.uses[stack[-1][1]]:
                yield f"docs/ARCHITECTURE.md: {stack[-1][1]} doesn't stand on {name}"
        stack.append((indent, names[0]))
    for name in crates.uses:
        if seen.count(name) != 1:
            yield f"docs/ARCHITECTURE.md: {name} is pictured {seen.count(name)} times"


def chain_faults(crates):
    chain = crates.longest_chain()
    told = f"{NUMBERS[len(chain)]} libraries, from {chain[0]} to "
    if told not in read("docs/DECISIONS.md"):
        yield f"docs/DECISIONS.md: the longest chain is {told}{chain[-1]}: {' '.join(chain)}"


def head_faults(crates, write):
    """The crates whose README begins otherwise. Its head is written, where that is asked."""
    for name in crates.uses:
        path = f"crates/{name}/README.md"
        if not os.path.exists(path):
            yield f"{path}: isn't there"
            continue
        title, _, rest = read(path).partition("\n\n")
        if rest.partition("\n")[0] == crates.head(name):
            continue
        if not write:
            yield f"{path}: doesn't begin with: {crates.head(name)}"
            continue
        if rest.startswith("Group: "):
            rest = rest.partition("\n\n")[2]
        with open(path, "w", encoding="utf-8") as file:
            file.write(f"{title}\n\n{crates.head(name)}\n\n{rest}")


def blocks(text):
    """The paragraphs, items and cells of a document, without its code."""
    text, block = re.sub(r"^```.*?^```$", "", text, flags=re.M | re.S), []
    for line in [*text.split("\n"), ""]:
        is_row, is_code = line.startswith("|"), line.startswith("    ") and not block
        if is_row or is_code or not line.strip() or line.startswith(("#", ">")) or re.match(r"\s*(?:[-*]|\d+\.) ", line):
            yield " ".join(block)
            block = []
        if is_row:
            yield from re.split(r"(?<!\\)\|", line)
        elif line.strip() and not is_code and not line.startswith(("#", ">")):
            block.append(line.strip())


def long_sentences(crates, path):
    for block in blocks(read(path)):
        plain = re.sub(r"`[^`]*`", lambda quoted: re.sub(r"[ .;!?]", "_", quoted[0]), block)
        for sentence in re.split(r"(?<=[.!?;])[*)']*\s+", plain):
            count = sum(it.strip("(),.:;") not in crates.uses for it in re.findall(r"\S*\w\S*", sentence))
            if count > WORDS:
                yield f"{path}: {count} words: {sentence.strip()}"


def main():
    crates = Crates()
    faults = [*readme_faults(crates), *picture_faults(crates), *chain_faults(crates), *head_faults(crates, "--write" in sys.argv)]
    faults += [fault for path in PLAIN for fault in long_sentences(crates, path)]
    for fault in faults:
        print(fault)
    print(f"texts: {len(crates.uses)} crates, {len(PLAIN)} documents of short sentences, {len(faults)} faults")
    return 1 if faults else 0


if __name__ == "__main__":
    sys.exit(main())
