#!/usr/bin/env python3
"""Checks that no lemma which speaks of std's notions alone stands twice in the proofs of the crates.

    python3 .ci/lemmas.py

Two lemmas are the same where their statements are, but for the names of what they bind, the order in which they bind it, and brackets. Lemmas
of a `where` are left out, since they are steps of one proof, and so are those of one file, which may differ in brackets alone. A lemma that is wanted twice belongs into wf_lemmas, unless std has it. The exit status
is 1 where one stands twice.
"""

import collections
import glob
import re
import sys

NAME = r"[A-Za-z_][\w']*"
BINDER = re.compile(r"[({]([\w' ]+) : [^(){}]*[)}]")
LEMMA = re.compile(r"^( {0,2})(?:pub )?([\w-]+) : (.*)$")


def foreign(text):
    """The names that a file takes from elsewhere than std."""
    found = set()
    for module, names in re.findall(r"^ *use Rattle\.([\w.+-]+)\.\{([^}]*)\}", text, re.M):
        if not module.startswith("std"):
            found |= {name.split(" as ")[-1].strip() for name in names.split(",")}
    return found | {name for crate, name in re.findall(r"^use Rattle\.(\w+)[\w.+-]* as (\w+)", text, re.M) if crate != "std"}


def own(text):
    """The names that a file gives itself."""
    return set(re.findall(r"^ *(?:abbrev )?(?:pub )?([\w-]+) :", text, re.M)) | set(re.findall(r"^(?:pub )?(?:record|data) (\w+)", text, re.M))


def bound(statement):
    return [name for names in re.findall(r"[({]([\w' ]+) : ", statement) for name in names.split()]


def shape(statement):
    """A statement without its binders and brackets, its bound names by the order of their use."""
    names = set(bound(statement))
    body = re.sub(r"[()]", " ", re.sub(r"^(?:\s*→)+", "", BINDER.sub(" ", statement).strip()))
    numbers = {}
    for name in re.findall(NAME, body):
        if name in names:
            numbers.setdefault(name, f"v{len(numbers)}")
    return " ".join(re.sub(NAME, lambda it: numbers.get(it.group(0), it.group(0)), body).split())


def statements(text):
    """The lemmas of a file: their names, and their statements behind the parameters of their module."""
    lines, parameters, is_lemmas = text.split("\n"), "", True
    for at, line in enumerate(lines):
        if line and not line.startswith(" "):
            is_lemmas = not re.match(r"(?:pub )?(?:record|data)\b|abbrev\b", line)
            module = re.match(r"module _ (.*) where", line)
            parameters = module.group(1) + " → " if module else ""
        lemma = LEMMA.match(line)
        if not lemma or not is_lemmas or len(lemma.group(1)) == 1 or (lemma.group(1) and not parameters):
            continue
        statement = (parameters if lemma.group(1) else "") + lemma.group(3)
        for more in lines[at + 1 :]:
            if not re.match(r" {4,}(?:→|∙)", more):
                break
            statement += " " + more.strip()
        if "→" in statement or "≡" in statement:
            yield lemma.group(2), statement


def main():
    found, count = collections.defaultdict(list), 0
    for path in sorted(glob.glob("crates/*/proofs/**/*.antt", recursive=True)):
        if "/out/" in path:
            continue
        with open(path, encoding="utf-8") as file:
            text = file.read()
        others = foreign(text)
        given = own(text)
        for name, statement in statements(text):
            used = set(re.findall(NAME, statement)) - set(bound(statement))
            if not used & (others | given - {name}):
                found[shape(statement)].append(f"{path}: {name}")
                count += 1
    twice = {statement: places for statement, places in found.items() if len({place.split(":")[0] for place in places}) > 1}
    for statement, places in sorted(twice.items()):
        print(f"stands {len(places)} times: {statement}", *places, sep="\n    ")
    print(f"lemmas: {count} on std's notions alone, {len(twice)} of them twice")
    return 1 if twice else 0


sys.exit(main())
