#!/usr/bin/env python3
"""Runs the rows of a case program before any proof, and shows each that comes out differently.

    python3 .ci/cases.py [--program PATH] NAME [WORD ..]     the rows of crates/NAME whose line holds one of the words; without words all

A row is a line of crates/NAME/stdin with its answer in crates/NAME/stdout. `rt try` builds the program once, without a proof, and runs it on the
rows, at most 500 at a time, so that a row which stops it hides few others. With --program a built program is run in its place. Of each row that
differs stands the line, the case, what was wanted and what came. The exit status is 1 where one differs, 2 where none can be tried.
"""

import glob
import os
import re
import subprocess
import sys
import tempfile

SHOWN = 20
LONGEST = 600
ROWS = 500
BYTES = 400_000
SECONDS = 600
# how the last line of an answer begins, where an answer of the table has several
LAST_LINES = {b"nodes": b"workflows"}


class Row:
    """A case, the number of its line, and the lines of its answer: those that are wanted, and those that came."""

    def __init__(self, number, case):
        self.number, self.case, self.wanted, self.got = number, case, [], []
        self.last = LAST_LINES.get(case.split(b" ", 1)[0], b"")

    def take(self, lines):
        """The lines of its answer, from the front of what is left of an output."""
        taken = []
        while lines:
            taken.append(lines.pop())
            if taken[-1].startswith(self.last):
                break
        return taken


def read_rows(folder):
    with open(f"{folder}/stdin", "rb") as cases, open(f"{folder}/stdout", "rb") as answers:
        rows = [Row(number, case) for number, case in enumerate(cases.read().splitlines(), 1)]
        left = answers.read().splitlines()[::-1]
    for row in rows:
        row.wanted = row.take(left)
    assert not left, f"{folder}: stdout has {len(left)} lines behind the last case"
    return rows


def in_parts(rows):
    """The rows in a few parts, each of which the program is run on."""
    parts, size = [], 0
    for row in rows:
        length = sum(map(len, row.wanted)) + len(row.wanted)
        if not parts or len(parts[-1]) == ROWS or size + length > BYTES:
            parts.append([])
            size = 0
        parts[-1].append(row)
        size += length
    return parts


def given(part):
    return b"".join(row.case + b"\n" for row in part)


def tried(folder, parts):
    """What the program prints of each part, as `rt try` builds it, and what is told of the parts that it didn't end well."""
    with tempfile.TemporaryDirectory(prefix="cases-") as room:
        for number, part in enumerate(parts):
            with open(f"{room}/part{number:05}", "wb") as file:
                file.write(given(part))
        words = ["rt", "try", "--steps", "1", "--seconds", str(SECONDS), "--cases", room]
        ran = subprocess.run(words, cwd=folder, stdin=subprocess.DEVNULL, stdout=subprocess.PIPE, stderr=subprocess.PIPE)
    pieces = re.split(rb"^== part(\d{5})\n", ran.stdout, flags=re.M)
    printed = {int(number): text for number, text in zip(pieces[1::2], pieces[2::2])}
    told = ran.stderr.decode(errors="replace")
    if not re.search(r"^case=part", told, re.M):
        return None, told
    ill = [line for line in told.splitlines() if not re.match(r"case=part\d+ run=ended status=0 |cases=\d+ ended=", line)]
    return [printed.get(number, b"") for number in range(len(parts))], "\n".join(ill)


def run(program, parts):
    """The same of a built program."""
    printed, told = [], []
    for number, part in enumerate(parts):
        ran = subprocess.run([program], input=given(part), stdout=subprocess.PIPE, stderr=subprocess.PIPE)
        printed.append(ran.stdout)
        if ran.returncode:
            told.append(f"part{number:05}: status {ran.returncode} {ran.stderr.decode(errors='replace')}")
    return printed, "\n".join(told)


def text(lines):
    """The lines of an answer as they are shown, cut where they are very long."""
    whole = b"\n         ".join(lines).decode(errors="replace") or "(nothing)"
    return whole if len(whole) <= LONGEST else f"{whole[:LONGEST]} .. ({len(whole)} characters)"


def around_first(row):
    """What was wanted and what came, from a little before the first difference on, where both are long."""
    wanted, got = b"\n".join(row.wanted), b"\n".join(row.got)
    at = next((i for i, (a, b) in enumerate(zip(wanted, got)) if a != b), min(len(wanted), len(got)))
    if at < LONGEST - 100:
        return text(row.wanted), text(row.got)
    return tuple(f".. {it[at - 100 : at + LONGEST - 100].decode(errors='replace')} (from character {at - 100} on)" for it in (wanted, got))


def show(folder, row):
    wanted, got = around_first(row)
    print(f"{folder}/stdin:{row.number}\n  case   {text([row.case])}\n  wanted {wanted}\n  got    {got}")


def main(words):
    program = None
    if words[:1] == ["--program"]:
        program, words = os.path.abspath(words[1]), words[2:]
    if not words:
        print(__doc__, file=sys.stderr)
        return 2
    name, holding = words[0], [word.encode() for word in words[1:]]
    os.chdir(os.path.dirname(os.path.dirname(os.path.abspath(__file__))))
    folder = f"crates/{name}"
    if not os.path.isfile(f"{folder}/stdin"):
        print("cases: no such program; there are", *(path.split("/")[1] for path in sorted(glob.glob("crates/*_cases/stdin"))))
        return 2
    rows = [row for row in read_rows(folder) if not holding or any(word in row.case for word in holding)]
    if not rows:
        print(f"cases: no row of {name} holds", *words[1:])
        return 2
    parts = in_parts(rows)
    printed, told = run(program, parts) if program else tried(folder, parts)
    if printed is None:
        print(told, "cases: the program isn't built", sep="\n")
        return 2
    shown, silent = [], 0
    for part, output in zip(parts, printed):
        left = output.splitlines()[::-1]
        for row in part:
            row.got = row.take(left)
        # where the program stops at a row, nothing comes of those behind it either
        nothing = [row for row in part if not row.got]
        shown += [row for row in part if row.got and row.got != row.wanted] + nothing[:1]
        silent += len(nothing)
    for row in shown[:SHOWN]:
        show(folder, row)
    if told:
        print(told[-2000:])
    differ = sum(row.got != row.wanted for row in rows)
    print(f"cases: {len(rows)} rows of {name}, {differ} differ" + f"; of {silent} nothing came" * bool(silent) + f"; {SHOWN} are shown" * (len(shown) > SHOWN))
    return 1 if differ or told else 0


if __name__ == "__main__":
    sys.exit(main(sys.argv[1:]))
