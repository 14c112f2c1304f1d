#!/usr/bin/env python3
"""Kills the built program at random moments, and looks at what its journals come to.

In each round an execution is started on a new journal file and killed (signal 9) after a random while, and so are some attempts to resume it.
Whenever a process was killed, the last, undisturbed command has to end with status 0 and print one line, of which all that was printed before is
a front; resumed again it prints the same line and leaves the file as it is. Nothing here rests on when a kill comes. The rounds are bounded.

It also looks at the rows that need a real file: files that are no journal, that are new, or that are finished.

Then the same with calls to an HTTP service of its own (call_rounds.py).
"""

import os
import random
import subprocess
import sys
import tempfile
import time

sys.dont_write_bytecode = True
import call_rounds

ROUNDS = 150
PROGRAM = os.path.abspath(sys.argv[1] if len(sys.argv) > 1 else "crates/workflow/out/workflow")
SOURCE = b'[{"a":{"assign":[{"t":"${sys.now()}"}]}},{"b":{"return":"${t}"}}]'


def call(folder, *words):
    """Runs the program to its end, and returns its status and what it printed."""
    ended = subprocess.run([PROGRAM, *words], cwd=folder, stdin=subprocess.DEVNULL, stdout=subprocess.PIPE, timeout=60)
    return ended.returncode, ended.stdout


def killed(folder, seconds, *words):
    """Starts the program, kills it after a while, and returns whether that came before its end, and what it printed."""
    started = subprocess.Popen([PROGRAM, *words], cwd=folder, stdin=subprocess.DEVNULL, stdout=subprocess.PIPE)
    time.sleep(seconds)
    started.kill()
    printed = started.communicate()[0]
    return started.returncode == -9, printed


def read(folder, name):
    with open(f"{folder}/{name}", "rb") as file:
        return file.read()


def write(folder, name, content):
    with open(f"{folder}/{name}", "wb") as file:
        file.write(content)


def wanted(what, have, want):
    if have != want:
        sys.exit(f"kill_rounds: {what}: {have!r}, and not {want!r}")


def look_at_files(folder):
    """The rows on a real file."""
    run = ["run", "--source", "source", "--journal", "file"]
    resume = ["resume", "--journal", "file"]
    wanted("resume with no file", call(folder, *resume), (6, b"not started\n"))
    write(folder, "file", b"abcde")
    wanted("run on other bytes", call(folder, *run), (11, b"not a journal\n"))
    wanted("the other bytes", read(folder, "file"), b"abcde")
    write(folder, "file", b"abcd")
    wanted("resume on a new file", call(folder, *resume), (6, b"not started\n"))
    first = call(folder, *run)
    wanted("the status of run on a new file", first[0], 0)
    journal = read(folder, "file")
    wanted("resume of a finished journal", call(folder, *resume), first)
    wanted("run on a finished journal", call(folder, *run), (5, b"already started\n"))
    wanted("the finished journal", read(folder, "file"), journal)
    start = 9 + int.from_bytes(journal[5:9], "big")
    write(folder, "file", journal[:start] + b"\x01\x00\x00\x00\x01\x09\x00")
    wanted("resume of a second record that is none", call(folder, *resume), (12, b"not a history at record 1\n"))


def one_round(folder, chance, longest):
    """Kills a run and some resumptions, goes on to the end, and returns how many were killed."""
    if os.path.exists(f"{folder}/journal"):
        os.remove(f"{folder}/journal")
    run = ["run", "--source", "source", "--journal", "journal"]
    resume = ["resume", "--journal", "journal"]
    attempts = [run] + [resume] * chance.randrange(4)
    count, fronts = 0, []
    for words in attempts:
        was_killed, printed = killed(folder, chance.random() * longest, *words)
        count += was_killed
        if printed != b"not started\n"[: len(printed)]:
            fronts.append(printed)
    status, line = call(folder, *resume)
    if status == 6:
        wanted("what not started prints", line, b"not started\n")
        wanted("what was printed before a start", [it for it in fronts if it], [])
        status, line = call(folder, *run)
    wanted("the status of the undisturbed command", status, 0)
    if not (line.endswith(b"\n") and line[:-1].isdigit()):
        sys.exit(f"kill_rounds: the outcome {line!r} is no reading of the clock")
    for front in fronts:
        wanted("what was printed before", front, line[: len(front)])
    journal = read(folder, "journal")
    wanted("another resume", call(folder, *resume), (0, line))
    wanted("the journal behind it", read(folder, "journal"), journal)
    return count


def main():
    chance = random.Random()
    with tempfile.TemporaryDirectory(prefix="kill-rounds-") as folder:
        write(folder, "source", SOURCE)
        look_at_files(folder)
        begun = time.monotonic()
        wanted("the status of a first run", call(folder, "run", "--source", "source", "--journal", "first")[0], 0)
        longest = 0.8 * (time.monotonic() - begun)
        count = sum(one_round(folder, chance, longest) for _ in range(ROUNDS))
    print(f"kill_rounds: {count} kills in {ROUNDS} rounds, and each journal went on to one outcome")
    call_rounds.all_rounds(PROGRAM)


if __name__ == "__main__":
    main()
