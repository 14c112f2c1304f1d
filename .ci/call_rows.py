"""Runs one call on the built program against an HTTP service of this script's own, and goes on from each image that a crash may have left.

Row by row: a whole run, with the bytes of its request; a journal with the start alone, one with the call and no answer, one whose answer's record is
written and not opened yet (the gate's byte is 0, or another), and a whole one; an answer in chunks, cut after each of its bytes; an answer that is too
short; a service that isn't there; a command that waits three times only, and what resumes it; lines with a number of waits that is none.
"""

import json
import os
import socket
import subprocess
import sys
import tempfile
import time

from call_rounds import Folder, calls_of
from service import Service, wait_for_close

HOST = "service.test"
ANSWER = b'HTTP/1.1 200 OK\r\nContent-Type: application/json\r\nContent-Length: 7\r\n\r\n{"n":3}'
CHUNKS = b'HTTP/1.1 200 OK\r\nContent-Type: application/json\r\nTransfer-Encoding: chunked\r\n\r\n3\r\n{"n\r\n4;x=y\r\n":3}\r\n0\r\nX-T: t\r\n\r\n'
REQUEST = b"GET /x HTTP/1.1\r\nHost: service.test\r\nConnection: close\r\nX-Workflow-Call: row-1\r\n\r\n"
STEPS = [{"a": {"call": "http.get", "args": {"url": f"http://{HOST}/x"}, "result": "r"}}, {"b": {"return": "${r.body.n}"}}]


class Rows(Folder):
    """The program, its folder, and the service, which answers as the row says."""

    def __init__(self, program, folder):
        super().__init__(folder)
        self.program, self.count, self.heard = program, 0, 0
        self.answer = None
        self.service = Service(lambda request, connection: self.answer(connection))
        self.route = ["--route", f"{HOST}=127.0.0.1:{self.service.port}"]
        self.write("source", json.dumps(STEPS).encode())

    def call(self, *words):
        ended = subprocess.run([self.program, *words], cwd=self.folder, stdin=subprocess.DEVNULL, stdout=subprocess.PIPE, timeout=60)
        return ended.returncode, ended.stdout

    def run(self, *more):
        """A run with a new journal."""
        if os.path.exists(f"{self.folder}/journal"):
            os.remove(f"{self.folder}/journal")
        return self.call("run", "--source", "source", "--journal", "journal", "--id", "row", *self.route, *more)

    def resume(self, *more):
        return self.call("resume", "--journal", "journal", *more)

    def sent(self):
        """What the service was sent since it was asked last."""
        all_sent = self.service.settle()
        new, self.heard = all_sent[self.heard :], len(all_sent)
        return new

    def row(self, what, said, wanted):
        """Compares a command's status and line, or what was sent."""
        assert said == wanted, (what, said, wanted)
        self.count += 1


def at_once(connection):
    connection.sendall(ANSWER)


def gates_of(journal):
    """Where the gates of a journal's records stand, the closed one behind the last among them."""
    gates = [4]
    while journal[gates[-1]] == 1:
        size = int.from_bytes(journal[gates[-1] + 1 : gates[-1] + 5], "big")
        gates.append(gates[-1] + 5 + size)
    return gates


def images(rows):
    """Goes on from each image of a run that a crash may have left."""
    rows.answer = at_once
    rows.row("a whole run", rows.run(), (0, b"3\n"))
    rows.row("its request", rows.sent(), [REQUEST])
    whole = rows.journal()
    gates = gates_of(whole)
    rows.row("a start, the call, its answer", len(gates), 4)
    for name, gate in (("the start alone", gates[1]), ("the call, and no answer", gates[2])):
        rows.write("journal", whole[:gate] + b"\0")
        rows.row(name, rows.resume(), (0, b"3\n"))
        rows.row(name, rows.sent(), [REQUEST])
        rows.row(name, calls_of(rows.journal()), (1, {1}))
    for byte in (b"\0", b"\x37"):
        rows.write("journal", whole[: gates[2]] + byte + whole[gates[2] + 1 :])
        rows.row(f"a gate of {byte}", rows.resume(), (0, b"3\n"))
        rows.row(f"a gate of {byte}", rows.sent(), [REQUEST])
    rows.write("journal", whole)
    rows.row("a whole journal", rows.resume(), (0, b"3\n"))
    rows.row("a whole journal", (rows.sent(), rows.journal()), ([], whole))


def answers(rows):
    """An answer in two pieces, cut after each byte; one that is too short; and none at all."""
    for cut in range(1, len(CHUNKS)):

        def in_two(connection):
            connection.sendall(CHUNKS[:cut])
            time.sleep(0.002)
            connection.sendall(CHUNKS[cut:])

        rows.answer = in_two
        rows.row(f"chunks cut after {cut} bytes", rows.run(), (0, b"3\n"))
    rows.sent()
    rows.answer = lambda connection: connection.sendall(ANSWER[:-1])
    status, line = rows.run()
    rows.row("a short body", (status, json.loads(line)["tags"]), (1, ["ConnectionError"]))
    rows.row("a short body", rows.sent(), [REQUEST])
    rows.row("it is sent no more", (rows.resume(), rows.sent()), ((1, line), []))
    route = rows.route
    with socket.socket() as shut:
        shut.bind(("127.0.0.1", 0))
        rows.route = ["--route", f"{HOST}=127.0.0.1:{shut.getsockname()[1]}"]
        status, line = rows.run()
    rows.row("no service", (status, json.loads(line)["tags"]), (1, ["ConnectionError"]))
    rows.route = route


def waits(rows):
    """A command that waits three times, and what resumes it: the call stays as it was journaled, with its due moment."""

    def bytes_without_end(connection):
        for byte in ANSWER[:-1]:
            connection.sendall(bytes([byte]))
            time.sleep(0.02)
        wait_for_close(connection)

    rows.answer = bytes_without_end
    rows.row("three waits", rows.run("--waits", "3"), (13, b"suspended\n"))
    rows.row("three waits", rows.sent(), [REQUEST])
    left = rows.journal()
    rows.row("the call is open", calls_of(left), (1, set()))
    rows.answer = at_once
    rows.row("it is resumed", rows.resume("--waits", "1000"), (0, b"3\n"))
    rows.row("it is resumed", rows.sent(), [REQUEST])
    rows.row("the same due moment", rows.journal()[: len(left) - 1], left[:-1])
    for number in ("0", "1000000001"):
        rows.row(f"waits {number}", rows.run("--waits", number), (2, b"bad line at word %d\n" % (8 + len(rows.route))))
    rows.row("no line sends", rows.sent(), [])


def main(program):
    with tempfile.TemporaryDirectory(prefix="call-rows-") as folder:
        rows = Rows(program, folder)
        images(rows)
        answers(rows)
        waits(rows)
        rows.service.close()
    print(f"call_rows: {rows.count} rows of calls on the built program passed")


if __name__ == "__main__":
    main(os.path.abspath(sys.argv[1] if len(sys.argv) > 1 else "crates/workflow/out/workflow"))
