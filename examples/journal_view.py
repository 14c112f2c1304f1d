#!/usr/bin/env python3
"""Prints the records of a journal as a timeline: journal_view.py JOURNAL

It is written by docs/JOURNAL.md alone, and reads what the file holds. It doesn't replay: it can't tell which step a move is of.
"""

import sys

METHODS = ("GET", "POST", "PUT", "PATCH", "DELETE", "OPTIONS")
WITH_READING = {2: "MoveAt", 4: "Issue", 6: "Due"}
PLAIN = {1: "Move", 3: "Begin"}


class Part:
    """The bytes of a record, from some place on."""

    def __init__(self, data):
        self.data, self.at = data, 0

    def take(self, count):
        piece = self.data[self.at : self.at + count]
        if len(piece) < count:
            sys.exit(f"a record is cut off at byte {self.at}")
        self.at += count
        return piece

    def number(self, count):
        return int.from_bytes(self.take(count), "big")

    def string(self):
        return self.take(self.number(4))

    def text(self):
        return self.string().decode()

    def several(self, item):
        return [item() for _ in range(self.number(4))]

    def fields(self):
        return self.several(lambda: (self.string(), self.string()))


def records(data):
    """The payloads of a file, up to the first gate that isn't open."""
    if len(data) > 4 and data[:4] != b"WFJ1":
        sys.exit("not a journal")
    gate = 4
    while gate + 5 <= len(data) and data[gate] == 1:
        size = int.from_bytes(data[gate + 1 : gate + 5], "big")
        if gate + 5 + size >= len(data):
            return
        yield data[gate + 5 : gate + 5 + size]
        gate += 5 + size


def event(part):
    """An event: its name, its reading where it has one, and what else is told of it."""
    kind = part.number(1)
    if kind in PLAIN:
        return PLAIN[kind], None, f"task {part.number(4)}"
    if kind in WITH_READING:
        task = part.number(4)
        return WITH_READING[kind], part.number(8), f"task {task}"
    if kind == 5:
        call, reading, what = part.number(8), part.number(8), part.number(1)
        if what:
            return "Answer", reading, f"call {call}: {('', 'broken', 'too long')[what]}"
        code, fields, body = part.number(2), part.fields(), part.string()
        return "Answer", reading, f"call {call}: {code}, {len(fields)} fields, {len(body)} bytes"
    if kind == 7:
        endpoint, reading, method, _, body = part.number(8), part.number(8), METHODS[part.number(1)], part.fields(), part.string()
        return "Arrive", reading, f"endpoint {endpoint}: {method}, {len(body)} bytes"
    sys.exit(f"an event of kind {kind}")


def start(part):
    """Tells of a start, and gives its reading of the clock."""
    name, source, argument = part.text(), part.string(), part.text()
    routes = part.several(lambda: (part.text(), part.text(), part.number(2)))
    pairs = part.several(lambda: (part.text(), part.text()))
    part.text()
    reading = part.number(8)
    print(f"start of {name}, source {len(source)} bytes, argument {argument[:60]}, {len(routes)} routes, {len(pairs)} pairs of the environment, at {reading}")
    return reading


def turn(part, first):
    """Tells of a turn: moves in a row on one line, and of each other event how long behind the start it was."""
    session, waits, events = part.number(8), part.number(8), part.several(lambda: event(part))
    print(f"turn of session {session} behind {waits} waits, {len(events)} events")
    row = 0
    for at, (name, reading, what) in enumerate(events):
        if reading is None:
            row += 1
            if [it[0] for it in events[at + 1 : at + 2]] != [name]:
                print(f"    {row} x {name}")
                row = 0
        else:
            print(f"    {name}, {reading - first} ms behind the start: {what}")


def main(path):
    with open(path, "rb") as file:
        data = file.read()
    first = 0
    for number, payload in enumerate(records(data)):
        part = Part(payload)
        kind = part.number(1)
        print(f"record {number}: ", end="")
        if kind == 1:
            first = start(part)
        elif kind == 2:
            turn(part, first)
        else:
            print(f"of kind {kind}, which no record of format 1 has")
            continue
        if part.at != len(payload):
            print(f"    {len(payload) - part.at} bytes behind the record")


if __name__ == "__main__":
    main(*sys.argv[1:])
