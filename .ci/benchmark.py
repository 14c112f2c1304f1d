#!/usr/bin/env python3
"""Measures the built program, beside the gate: it isn't called there, since it rests on time.

    python3 .ci/benchmark.py [PROGRAM]

A loop over a list of 10,000 items, which makes some 90,000 counted events, is run with a journal on a real file. Against it stands a bare loop
(bare_loop.rs) that makes the same writes and syncs of the same bytes, a round for each record: the quotient of the two times is to be at most 4.
The program is timed as a command, the bare loop from its first round on; told too is the quotient against the bare loop as a command, and that
of both loops alone: of the program what it takes more than with a source that has the list and no loop, of the bare loop its rounds less those for
the journal of that source.
Most of the bare loop's time is that of its syncs, so the quotient rests on the disk: it is also told as it is on a disk whose sync takes a
millisecond. Nothing of the run is done during a sync, so longer syncs add the same to both times. Told too is the quotient against a bare loop
that goes round as often as the program's own does, once an event, and writes the bytes of each event by themselves, with the same syncs. Then the
instructions of one event of a loop are counted, by valgrind, in programs that differ in one thing: the size of a variable that the loop only
reads, or how many steps the program has besides. Each of these quotients is to be below 1.5. The exit status is 1 where one isn't. It wants
rustc and valgrind.

Each time is the least of twenty, so that other work on the machine counts for little.
"""

import json
import os
import re
import subprocess
import sys
import tempfile
import time

PROGRAM = os.path.abspath(sys.argv[1] if len(sys.argv) > 1 else "crates/workflow/out/workflow")
BARE_LOOP = os.path.join(os.path.dirname(os.path.abspath(__file__)), "bare_loop.rs")
MOST_AGAINST_BARE = 4
SYNC = 0.001
MOST_GROWTH = 1.5
TRIES = 20


def compact(value):
    return json.dumps(value, separators=(",", ":")).encode()


def assign(name, *entries):
    return {name: {"assign": [{target: value} for target, value in entries]}}


def large_loop():
    """A source, what it prints, and how many events it makes: nine in each of 10,000 iterations, and seven around them. And the same without its loop."""
    body = [
        assign("a", ("n", "${n + i}"), ("x", "${l[i]}")),
        {"b": {"switch": [{"condition": "${x}", "steps": [assign("c", ("odd", "${odd + 1}"), ("m", "${n * 2 - i}"))]}]}},
        assign("d", ("k", "${k + 1}"), ("r", "${k % 7}")),
    ]
    steps = [
        assign("start", ("l", [True] * 10_000), ("n", 0), ("odd", 0), ("k", 0)),
        {"loop": {"for": {"value": "v", "index": "i", "in": "${l}", "steps": body}}},
        {"last": {"return": ["${n}", "${odd}", "${k}"]}},
    ]
    total = sum(range(10_000))
    alone = compact([step for step in steps if "loop" not in step])
    return (compact(steps), f"[{total},10000,10000]\n".encode(), 4 + 1 + 10_000 * 9 + 1 + 1), (alone, b"[0,0,0]\n", 4 + 1)


def records(journal):
    """The payloads of a journal."""
    assert journal[:4] == b"WFJ1"
    found, at = [], 4
    while at < len(journal) and journal[at] == 1:
        end = at + 5 + int.from_bytes(journal[at + 1 : at + 5], "big")
        found.append(journal[at + 5 : end])
        at = end
    return found


def events(journal):
    """How many events the turns of a journal have."""
    return sum(int.from_bytes(payload[17:21], "big") for payload in records(journal) if payload[0] == 2)


def timed(folder, words):
    """What a command prints, and the time that passed and the processor time from its start to its end, in seconds."""
    begun = time.perf_counter()
    started = subprocess.Popen(words, cwd=folder, stdin=subprocess.DEVNULL, stdout=subprocess.PIPE)
    said = started.stdout.read()
    _, status, used = os.wait4(started.pid, 0)
    passed = time.perf_counter() - begun
    started.returncode = os.waitstatus_to_exitcode(status)
    started.stdout.close()
    assert started.returncode == 0, (started.returncode, said[:200])
    return said, passed, used.ru_utime + used.ru_stime


def run(folder, source, printed, journal):
    """Runs a source with a journal, and returns the time that passed and the processor time, in seconds."""
    with open(f"{folder}/source", "wb") as file:
        file.write(source)
    said, passed, used = timed(folder, [PROGRAM, "run", "--source", "source", "--id", "b", "--journal", journal])
    assert said == printed, said[:200]
    return passed, used


def bare(folder, loop, journal, each):
    """The time of a bare loop that goes round once a record or once an event: that of its command, that of its rounds alone, in seconds; how often
    it goes round; and its syncs with their time."""
    said, passed, _ = timed(folder, [loop, "journal", "bare", each])
    rounds, alone, syncs, syncing = map(int, said.split())
    assert read(f"{folder}/bare") == journal
    os.remove(f"{folder}/bare")
    return passed, alone / 1e6, rounds, syncs, syncing / 1e6


def read(path):
    with open(path, "rb") as file:
        return file.read()


def measured(folder, loop, source, printed, wanted):
    """Runs a source with a journal several times, and the bare loops beside it: the times of each, and the journal."""
    ours, each_record, each_event = [], [], []
    for _ in range(TRIES):
        ours.append(run(folder, source, printed, "journal"))
        journal = read(f"{folder}/journal")
        assert events(journal) == wanted, (events(journal), wanted)
        each_record.append(bare(folder, loop, journal, "records"))
        each_event.append(bare(folder, loop, journal, "events"))
        os.remove(f"{folder}/journal")
    return ours, each_record, each_event, journal


def against_bare(folder):
    """Whether a large loop with its journal takes at most so many times what the same writes and syncs take."""
    loop = f"{folder}/bare_loop"
    subprocess.run(["rustc", "--edition", "2021", "-O", "-o", loop, BARE_LOOP], check=True)
    large, rest = large_loop()
    ours, each_record, each_event, journal = measured(folder, loop, *large)
    before, bare_before, _, _ = measured(folder, loop, *rest)
    passed, used = min(it[0] for it in ours), min(it[1] for it in ours)
    command, long = min(it[0] for it in each_record), min(it[0] for it in each_event)
    (_, alone, turns, syncs, syncing), rounds = min(each_record, key=lambda it: it[1]), each_event[0][2]
    # both wait for as many syncs, one after another, and do nothing meanwhile
    more = syncs * SYNC - syncing
    slower = (passed + more) / (alone + more)
    looped, bare_looped = passed - min(it[0] for it in before), alone - min(it[1] for it in bare_before)
    print(f"{large[2]} events over a list of 10000 items, a journal of {len(journal)} bytes, {syncs} syncs:")
    print(f"    the program {1000 * passed:.1f} ms, {1000 * used:.1f} ms of them the processor's")
    print(f"    a bare loop of {turns} rounds, one for each record, {1000 * alone:.1f} ms: quotient {passed / alone:.2f} on this disk, whose sync takes", end=" ")
    print(f"{1e6 * syncing / syncs:.0f} microseconds, and {slower:.2f} on one whose sync takes {1e6 * SYNC:.0f}")
    print(f"    the same with the start of its command, {1000 * command:.1f} ms: quotient {passed / command:.2f}")
    print(f"    the loops alone, {1000 * looped:.1f} ms against {1000 * bare_looped:.1f} ms: quotient {looped / bare_looped:.2f}")
    print(f"    a bare loop of {rounds} rounds, one for each event, {1000 * long:.1f} ms: quotient {passed / long:.2f}")
    return passed / alone <= MOST_AGAINST_BARE


def loop_over(times, step):
    return {"loop": {"for": {"value": "v", "range": [1, times], "steps": [step]}}}


READS = assign("read", *[("x", "${l[1]}")] * 6, ("x", "${get_type(l)}"), ("x", "${if(true, 1, l)}"))


def reading(size):
    """Programs that read a list of texts of about this size, by how often."""
    items = ["a"] * max(2, (size - 2) // 3)
    return lambda times: [assign("start", ("l", items), ("x", 0)), loop_over(times, READS), {"last": {"return": "${x}"}}]


def beside(steps):
    """Programs of a loop that have so many steps besides, by how often it goes round."""
    rest = [assign(f"s{number}", ("y", number)) for number in range(steps - 3)]
    return lambda times: [assign("start", ("x", 0)), loop_over(times, assign("add", *[("x", "${x + v % 3}")] * 8)), {"last": {"return": "${null}"}}, *rest]


def jumping(steps):
    """Programs that go round by `next`, in a list that has so many steps besides before the one that is jumped to."""
    rest = [assign(f"s{number}", ("y", number)) for number in range(steps - 5)]
    again = {"again": {"switch": [{"condition": "${x < n}", "next": "add"}]}}
    return lambda times: [
        assign("start", ("x", 0), ("n", times)), {"over": {"next": "add"}}, *rest, assign("add", ("x", "${x + 1}")), again, {"last": {"return": "${null}"}}
    ]


def instructions(folder, source, printed):
    """How many instructions the run of a source takes. Other work on the machine changes nothing of that."""
    with open(f"{folder}/source", "wb") as file:
        file.write(source)
    words = ["valgrind", "--tool=callgrind", "--callgrind-out-file=/dev/null", PROGRAM, "run", "--source", "source", "--id", "b"]
    ran = subprocess.run(words, cwd=folder, stdin=subprocess.DEVNULL, capture_output=True)
    assert (ran.returncode, ran.stdout) == (0, printed), (ran.returncode, ran.stdout[:200], ran.stderr[-200:])
    return int(re.search(rb"Collected : (\d+)", ran.stderr)[1])


def event_cost(folder, programs, times, events_each, printed):
    """The instructions of an event: those of a long run less those of a short one, so that the start doesn't count."""
    few, many = times // 10, times
    spent = [instructions(folder, compact(programs(count)), printed) for count in (few, many)]
    return (spent[1] - spent[0]) / ((many - few) * events_each)


def growth(folder, what, make, sizes, times, events_each, printed):
    """Whether an event takes as many instructions as before, where one thing of the program grows."""
    small, large = (event_cost(folder, make(size), times, events_each, printed) for size in sizes)
    print(f"{what}, {sizes[0]} and {sizes[1]}: {small:.0f} and {large:.0f} instructions an event, quotient {large / small:.2f}")
    return large / small < MOST_GROWTH


def main():
    with tempfile.TemporaryDirectory(dir=os.path.dirname(PROGRAM)) as folder:
        passed = [
            against_bare(folder),
            growth(folder, "a variable that is read, of a size of", reading, (10, 60_000), 10_000, 9, b"1\n"),
            growth(folder, "a loop in a program with steps", beside, (10, 1_000), 10_000, 9, b"null\n"),
            growth(folder, "a loop by `next` in a list of steps", jumping, (10, 1_000), 33_000, 3, b"null\n"),
        ]
    if not all(passed):
        print(f"benchmark: over what is wanted: at most {MOST_AGAINST_BARE} against the bare loop, and growth below {MOST_GROWTH}")
    return 0 if all(passed) else 1


if __name__ == "__main__":
    sys.exit(main())
