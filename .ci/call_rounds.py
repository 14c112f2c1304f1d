"""Kills the built program while it calls an HTTP service of this script's own, and looks at what the service was sent and what the journals come to.

In each round a workflow makes a few calls in a row. The service answers each call by its number, always the same way: at once, late, in pieces, in
chunks, cut off, with rubbish, with too much, or not at all; some calls are refused, or name a host that isn't there. The run and some resumptions
are killed (signal 9) after a random while, or wait a few times only. Then:

- the last, undisturbed command ends with 0 and prints what an unstopped run prints, of which all that was printed before is a front;
- whenever the service hears a request, the journal has the event that made it, and its bytes are those that the workflow says;
- no command sends a call twice, and none sends a call whose answer or whose due moment stood in the journal when it began;
- at the end each call that the service heard of stands in the journal, and resumed once more nothing is sent and the journal stays.

Only a call that is never answered has a short due moment, so nothing rests on when a kill comes. One run is looked at by strace, where it is there:
the last sync of the journal comes before the first byte of the request.
"""

import json
import os
import random
import re
import shutil
import socket
import subprocess
import sys
import tempfile
import time

from service import Service, reset, send_in_pieces, wait_for_close

ROUNDS = 60
CALLS = 5
ID = "round"
HOST = "service.test"
HEAD = b"HTTP/1.1 200 OK\r\nContent-Type: application/json\r\n"


def whole(body):
    """An answer with its length."""
    return HEAD + b"Content-Length: %d\r\n\r\n" % len(body) + body


def chunks(body):
    """An answer in chunks of three bytes, with a field behind them."""
    parts = [body[at : at + 3] for at in range(0, len(body), 3)]
    text = b"".join(b"%x;part\r\n%s\r\n" % (len(part), part) for part in parts)
    return HEAD + b"Transfer-Encoding: chunked\r\n\r\n" + text + b"0\r\nX-Trailer: t\r\n\r\n"


def late(connection, body):
    time.sleep(0.03)
    connection.sendall(whole(body))


def behind_others(connection, body):
    connection.sendall(b"HTTP/1.1 100 Continue\r\n\r\n")
    connection.sendall(b"HTTP/1.1 103 Early Hints\r\nLink: x\r\n\r\n" + whole(body))


def kept_open(connection, body):
    connection.sendall(whole(body))
    wait_for_close(connection)


def broken(connection, body):
    connection.sendall(whole(body)[:-2])
    time.sleep(0.01)
    reset(connection)


def too_long(connection, body):
    connection.sendall(HEAD + b"\r\n")
    for _ in range(33):
        connection.sendall(b" " * 65_536)
    connection.sendall(body)


def too_many_fields(connection, body):
    connection.sendall(b"HTTP/1.1 200 OK\r\n" + b"X-Field: some text\r\n" * 101 + b"\r\n" + body)


# How the service answers, and what the program makes of it: the body, or the tag of an error.
WAYS = {
    "at once": (lambda connection, body: connection.sendall(whole(body)), None),
    "late": (late, None),
    "byte by byte": (lambda connection, body: send_in_pieces(connection, whole(body), 1), None),
    "slowly": (lambda connection, body: send_in_pieces(connection, whole(body), 30, 0.005), None),
    "in chunks": (lambda connection, body: connection.sendall(chunks(body)), None),
    "in pieces of chunks": (lambda connection, body: send_in_pieces(connection, chunks(body), 2, 0.0002), None),
    "to the end": (lambda connection, body: connection.sendall(HEAD + b"\r\n" + body), None),
    "behind others": (behind_others, None),
    "kept open": (kept_open, None),
    "not found": (lambda connection, body: connection.sendall(b"HTTP/1.1 404 Not Found\r\nContent-Length: 1\r\n\r\nx"), "HttpError"),
    "no JSON": (lambda connection, body: connection.sendall(whole(body[:-1])), "ResponseTypeError"),
    "broken": (broken, "ConnectionError"),
    "broken at once": (lambda connection, body: reset(connection), "ConnectionError"),
    "ended at once": (lambda connection, body: None, "ConnectionError"),
    "short": (lambda connection, body: connection.sendall(whole(body)[:-1]), "ConnectionError"),
    "rubbish": (lambda connection, body: connection.sendall(bytes(range(256))), "ConnectionError"),
    "too many fields": (too_many_fields, "ConnectionError"),
    "a long head": (lambda connection, body: connection.sendall(b"HTTP/1.1 200 OK\r\nX-Field: " + b"x" * 70_000), "ConnectionError"),
    "too much by its length": (lambda connection, body: connection.sendall(HEAD + b"Content-Length: 2097153\r\n\r\n"), "ResourceLimitError"),
    "too long": (too_long, "ResourceLimitError"),
    "not at all": (lambda connection, body: wait_for_close(connection), "TimeoutError"),
    "refused": (None, "ConnectionError"),
    "no such name": (None, "ConnectionError"),
}

# Hosts other than that of the service, to which no request comes.
ELSEWHERE = {"refused": "refused.test", "no such name": "nowhere.test"}


def body_of(number):
    """What the service answers to a call."""
    return b'{"call": %d, "text": "\xc3\xa9\\u00e9"}' % number


def request_of(number):
    """The bytes of a call's request: every second call has a body."""
    body = b'{"before":%d}' % (number - 1) if number % 2 == 0 else b""
    method = b"POST" if body else b"GET"
    more = b"Content-Type: application/json\r\nContent-Length: %d\r\n" % len(body) if body else b""
    head = b"%s /%d?q=a%%20b HTTP/1.1\r\nHost: %s\r\nX-Round: r\r\nConnection: close\r\nX-Workflow-Call: %s-%d\r\n%s\r\n"
    return head % (method, number, HOST.encode(), ID.encode(), number, more) + body


def step_of(number, way):
    """A call, whose body or error is added to what was got so far. One that may fail stands in a `try`."""
    args = {"url": f"http://{ELSEWHERE.get(way, HOST)}/{number}", "headers": {"X-Round": "r"}, "query": {"q": "a b"}}
    if way == "not at all":
        args["timeout"] = 1
    if number % 2 == 0:
        args["body"] = {"before": "${len(got)}"}
    call = {"call": "http.post" if number % 2 == 0 else "http.get", "args": args, "result": "answer"}
    steps = [{f"call{number}": call}, {f"add{number}": {"assign": [{"got": "${list.concat(got, answer.body)}"}]}}]
    if WAYS[way][1] is None:
        return {f"step{number}": {"steps": steps}}
    failed = [{f"failed{number}": {"assign": [{"got": "${list.concat(got, error.tags[0])}"}]}}]
    return {f"step{number}": {"try": {"steps": steps}, "except": {"as": "error", "steps": failed}}}


def source_of(ways):
    """The workflow whose calls are answered in these ways."""
    steps = [step_of(number, way) for number, way in enumerate(ways, 1)]
    return json.dumps([{"first": {"assign": [{"got": []}]}}, *steps, {"last": {"return": "${got}"}}]).encode()


def line_of(ways):
    """What an unstopped run prints."""
    got = [WAYS[way][1] or json.loads(body_of(number)) for number, way in enumerate(ways, 1)]
    return json.dumps(got, separators=(",", ":"), ensure_ascii=False).encode() + b"\n"


class Payload:
    """A record's payload, read from its front."""

    def __init__(self, data):
        self.data, self.at = data, 0

    def number(self, size):
        self.at += size
        return int.from_bytes(self.data[self.at - size : self.at], "big")

    def skip_text(self):
        size = self.number(4)
        self.at += size


def payloads_of(journal):
    """The payloads behind open gates."""
    gate = 4
    while journal[gate : gate + 1] == b"\x01":
        size = int.from_bytes(journal[gate + 1 : gate + 5], "big")
        if gate + 5 + size >= len(journal):
            return
        yield journal[gate + 5 : gate + 5 + size]
        gate += 5 + size


def calls_of(journal):
    """How many calls a journal has, and the numbers of those that are answered or timed out (see docs/JOURNAL.md)."""
    issued, closed = 0, set()
    for data in payloads_of(journal):
        turn = Payload(data)
        if turn.number(1) != 2:
            continue
        turn.number(8), turn.number(8)
        for _ in range(turn.number(4)):
            kind = turn.number(1)
            if kind == 5:
                closed.add(turn.number(8))
                turn.number(8)
                skip_answer(turn)
                continue
            turn.number(4)
            assert kind in (1, 2, 4, 6), kind
            if kind != 1:
                turn.number(8)
            issued += kind == 4
            if kind == 6:
                closed.add(issued)
    return issued, closed


def skip_answer(turn):
    """Reads what was kept of an answer."""
    if turn.number(1) == 0:
        turn.number(2)
        for _ in range(turn.number(4)):
            turn.skip_text()
            turn.skip_text()
        turn.skip_text()


class Folder:
    """A folder with files, the journal among them."""

    def __init__(self, folder):
        self.folder = folder

    def write(self, name, content):
        with open(f"{self.folder}/{name}", "wb") as file:
            file.write(content)

    def journal(self):
        with open(f"{self.folder}/journal", "rb") as file:
            return file.read()


class Round(Folder):
    """A workflow whose calls are answered in these ways, its service, its journal and the commands on it."""

    def __init__(self, program, folder, ways):
        super().__init__(folder)
        self.program, self.ways = program, ways
        self.service, self.printed = Service(self.answer), []
        self.clear()
        self.write("source", source_of(ways))
        self.shut = socket.socket()
        self.shut.bind(("127.0.0.1", 0))
        addresses = {HOST: f"127.0.0.1:{self.service.port}", "refused.test": f"127.0.0.1:{self.shut.getsockname()[1]}", "nowhere.test": "no name:80"}
        routes = [word for host, address in addresses.items() for word in ("--route", f"{host}={address}")]
        self.run = ["run", "--source", "source", "--journal", "journal", "--id", ID, *routes]
        self.resume = ["resume", "--journal", "journal"]

    def close(self):
        self.service.close()
        self.shut.close()

    def clear(self):
        """Begins without a journal, and forgets what was sent."""
        if os.path.exists(f"{self.folder}/journal"):
            os.remove(f"{self.folder}/journal")
        self.heard, self.closed = 0, set()

    def answer(self, request, connection):
        """What the service does: it looks for the call in the journal, and answers it in its way."""
        number = int(re.match(rb"[A-Z]+ /([0-9]+)", request).group(1))
        assert request == request_of(number), request
        issued, closed = calls_of(self.journal())
        assert number <= issued, f"call {number} is sent, and the journal has {issued}"
        WAYS[self.ways[number - 1]][0](connection, body_of(number))

    def look(self):
        """Looks at what was sent by the command that has ended, and at what stands in the journal behind it."""
        sent = self.service.settle()
        new, self.heard = sent[self.heard :], len(sent)
        requests = {request_of(number): number for number in range(1, len(self.ways) + 1)}
        for request in new:
            assert any(it.startswith(request) for it in requests), request
        numbers = [requests[request] for request in new if request in requests]
        assert len(set(numbers)) == len(numbers), f"calls {numbers} are sent by one command"
        assert not self.closed & set(numbers), f"calls {numbers} are sent, and {self.closed} were answered"
        issued, self.closed = calls_of(self.journal()) if os.path.exists(f"{self.folder}/journal") else (0, set())
        assert max(numbers, default=0) <= issued, (numbers, issued)
        return numbers

    def killed(self, seconds, words):
        """Starts a command, kills it after a while, and returns whether that came before its end."""
        started = subprocess.Popen([self.program, *words], cwd=self.folder, stdin=subprocess.DEVNULL, stdout=subprocess.PIPE)
        time.sleep(seconds)
        started.kill()
        printed = started.communicate()[0]
        if printed != b"not started\n"[: len(printed)]:
            self.printed.append(printed)
        self.look()
        return started.returncode == -9

    def suspended(self, waits, words):
        """Makes a command that waits so many times at most, and returns whether it was suspended."""
        said = self.ended(*words, "--waits", str(waits))
        self.look()
        assert said in ((0, line_of(self.ways)), (6, b"not started\n"), (13, b"suspended\n")), said
        return said[0] == 13

    def ended(self, *words):
        """Runs a command to its end, and returns its status and what it printed."""
        ended = subprocess.run([self.program, *words], cwd=self.folder, stdin=subprocess.DEVNULL, stdout=subprocess.PIPE, timeout=60)
        return ended.returncode, ended.stdout

    def finish(self):
        """Goes on without a disturbance, and looks at what comes."""
        said = self.ended(*self.resume)
        if said == (6, b"not started\n"):
            assert not any(self.printed), self.printed
            said = self.ended(*self.run)
        self.look()
        line = line_of(self.ways)
        assert said == (0, line), (self.ways, said, line)
        assert all(line.startswith(it) for it in self.printed), self.printed
        issued, closed = calls_of(self.journal())
        assert issued == len(self.ways) and closed == set(range(1, issued + 1)), (issued, closed)
        journal = self.journal()
        assert self.ended(*self.resume) == (0, line)
        assert self.look() == [] and self.journal() == journal


def unstopped(program, folder):
    """Runs through all ways without a kill, a few calls at a time, and returns how long a call takes at most."""
    ways, longest = list(WAYS), 0.0
    for at in range(0, len(ways), CALLS):
        tried = Round(program, folder, ways[at : at + CALLS])
        begun = time.monotonic()
        said = tried.ended(*tried.run)
        numbers = tried.look()
        assert said == (0, line_of(tried.ways)), (tried.ways, said)
        assert numbers == [number for number, way in enumerate(tried.ways, 1) if way not in ELSEWHERE], numbers
        longest = max(longest, (time.monotonic() - begun) / len(tried.ways))
        tried.finish()
        tried.close()
    return min(longest, 0.1)


def one_round(program, folder, chance, longest):
    """Kills or suspends a run and some resumptions, goes on to the end, and returns how many were killed and how many suspended."""
    count = chance.randrange(2, CALLS + 1)
    ways = chance.sample([it for it in WAYS if it != "not at all"], count)
    if chance.randrange(4) == 0:
        ways[chance.randrange(count)] = "not at all"
    tried = Round(program, folder, ways)
    attempts = [tried.run] + [tried.resume] * chance.randrange(4)
    kills, suspensions = 0, 0
    for words in attempts:
        if chance.randrange(4) == 0:
            suspensions += tried.suspended(chance.randrange(1, 10), words)
        else:
            kills += tried.killed(chance.random() * longest * count, words)
    tried.finish()
    tried.close()
    return kills, suspensions


def synced_before_sent(program, folder):
    """By what the system was asked: what the journal was given last, before the first byte of a request is sent, is a sync that succeeded."""
    if not shutil.which("strace"):
        print("call_rounds: strace isn't there, so the order of syncs and sends isn't looked at")
        return
    tried = Round(program, folder, ["at once"])
    trace = ["strace", "-f", "-y", "-o", "trace", "-e", "trace=fsync,fdatasync,sendto,sendmsg,write,writev,pwrite64,connect"]
    ended = subprocess.run([*trace, program, *tried.run], cwd=folder, stdin=subprocess.DEVNULL, stdout=subprocess.PIPE, timeout=60)
    assert (ended.returncode, ended.stdout) == (0, line_of(tried.ways)), ended
    with open(f"{folder}/trace", encoding="utf-8", errors="replace") as file:
        calls = file.read().splitlines()
    sends = [at for at, it in enumerate(calls) if re.search(r"(sendto|sendmsg|write|writev)\(.*GET /1", it) and "/journal>" not in it]
    assert len(sends) == 1, calls
    before = [it for it in calls[: sends[0]] if "/journal>" in it]
    writes = [it for it in before if "write" in it]
    assert re.search(r"(fsync|fdatasync)\(.*= 0$", before[-1]) and len(writes) >= 10, calls
    assert tried.look() == [1]
    tried.close()


def all_rounds(program):
    """All that this script tries."""
    chance = random.Random()
    with tempfile.TemporaryDirectory(prefix="call-rounds-") as folder:
        longest = unstopped(program, folder)
        counts = [one_round(program, folder, chance, longest) for _ in range(ROUNDS)]
        synced_before_sent(program, folder)
    kills, suspensions = (sum(each) for each in zip(*counts))
    print(f"call_rounds: {kills} kills and {suspensions} suspensions in {ROUNDS} rounds, and no call was sent too early, too often or otherwise")


if __name__ == "__main__":
    all_rounds(os.path.abspath(sys.argv[1] if len(sys.argv) > 1 else "crates/workflow/out/workflow"))
