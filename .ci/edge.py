#!/usr/bin/env python3
"""Tries the built program at the edges that no clause speaks of: closed descriptors, two processes on one journal, files that must not be made, a
journal that can only be read, the folder of a new journal, syncs that fail, paths that can't be used, a limit on a file's size, a clock that is set
back, names that are looked up, services that keep connections open or stream on; what it costs to read a large value, to check a large source, to hear
a body in pieces, and to make many calls.

Nothing here rests on time. Every process ends by itself or is ended by its own handle.
"""

import fcntl
import json
import os
import re
import shutil
import subprocess
import sys
import tempfile
import threading

from service import Service, wait_for_close

PROGRAM = os.path.abspath(sys.argv[1] if len(sys.argv) > 1 else "crates/workflow/out/workflow")
ANSWERS = os.path.abspath("crates/http_cases/out/http_cases")
SOURCE = b'[{"a":{"assign":[{"t":"${sys.now()}"}]}},{"b":{"return":"${t}"}}]'
SEVEN = b'[{"a":{"return":7}}]'
ROUNDS = 60
LONGEST = 131_072
SLEEP = b'[{"a":{"call":"sys.sleep","args":{"seconds":1}}},{"b":{"return":7}}]'
CALLS, DESCRIPTORS = 3000, 64
REPORTS = (("show",), ("at", "--turn", "1"), ("log",))
MOST_INSTRUCTIONS = 3_000_000_000
NOBODY = 65534


def call(folder, *words, redirect="", source=None, **how):
    """Runs the program to its end in a shell with this redirection, and returns its status, what it printed and what it complained of."""
    shell = ["sh", "-c", f'exec "$0" "$@" {redirect}', PROGRAM, *words]
    given = {"input": source} if source is not None else {"stdin": subprocess.DEVNULL}
    ended = subprocess.run(shell, cwd=folder, stdout=subprocess.PIPE, stderr=subprocess.PIPE, timeout=60, **given, **how)
    return ended.returncode, ended.stdout, ended.stderr


def is_there(folder, name):
    return os.path.lexists(f"{folder}/{name}")


def write(folder, name, data):
    with open(f"{folder}/{name}", "wb") as file:
        file.write(data)


def read(folder, name):
    with open(f"{folder}/{name}", "rb") as file:
        return file.read()


def closed_descriptors(folder):
    """A closed output gets no journal: the print fails, and the journal stays whole. A closed input can't be read."""
    write(folder, "s.json", SEVEN)
    status, _, said = call(folder, "run", "--source", "s.json", "--journal", "j", redirect=">&-")
    assert status == 8 and said == b"workflow: cannot print the whole result\n", (status, said)
    assert read(folder, "j").startswith(b"WFJ1")
    assert call(folder, "resume", "--journal", "j") == (0, b"7\n", b"")
    status, printed, said = call(folder, "run", "--journal", "k", redirect="<&-")
    assert (status, printed, said) == (7, b"", b"workflow: cannot read standard input\n"), (status, printed, said)
    assert not is_there(folder, "k")
    status, printed, _ = call(folder, "run", "--source", "s.json", "--journal", "l", redirect="2>&-")
    assert (status, printed) == (0, b"7\n"), (status, printed)
    assert call(folder, "resume", "--journal", "l") == (0, b"7\n", b"")
    status, _, _ = call(folder, "run", "--source", "s.json", "--journal", "m", redirect="<&- >&- 2>&-")
    assert status == 8, status
    assert call(folder, "resume", "--journal", "m") == (0, b"7\n", b"")


def held_journal(folder):
    """A journal that another process holds is left alone."""
    write(folder, "s.json", SEVEN)
    assert call(folder, "run", "--source", "s.json", "--journal", "j")[:2] == (0, b"7\n")
    before = read(folder, "j")
    with open(f"{folder}/j", "rb") as file:
        fcntl.flock(file, fcntl.LOCK_EX)
        reports = [(*words, "--journal", "j") for words in REPORTS]
        for words in (("resume", "--journal", "j"), ("run", "--source", "s.json", "--journal", "j"), *reports):
            status, printed, said = call(folder, *words)
            assert (status, printed, said) == (9, b"", b"workflow: another process uses j\n"), (status, printed, said)
    assert read(folder, "j") == before
    assert call(folder, "resume", "--journal", "j") == (0, b"7\n", b"")


def two_at_once(folder):
    """Of two processes that begin one journal at the same time, the journal is one history with one answer."""
    write(folder, "s.json", SOURCE)
    for round in range(ROUNDS):
        name = f"j{round}"
        words = [PROGRAM, "run", "--source", "s.json", "--journal", name]
        both = [subprocess.Popen(words, cwd=folder, stdin=subprocess.DEVNULL, stdout=subprocess.PIPE, stderr=subprocess.DEVNULL) for _ in range(2)]
        ended = [(it.communicate(timeout=60)[0], it.returncode) for it in both]
        assert all(code in (0, 5, 9) for _, code in ended), ended
        status, printed, _ = call(folder, "resume", "--journal", name)
        if status == 6:
            # (neither came as far as the first record)
            assert all(code == 9 for _, code in ended), ended
            continue
        assert status == 0, (status, ended)
        assert all(text == printed for text, code in ended if code == 0), (printed, ended)


def no_file_is_made(folder):
    """A command that has nothing to write makes no file, and opens no source that it doesn't read."""
    write(folder, "s.json", SEVEN)
    write(folder, "bad.json", b"[")
    rows = [
        (("check", "--source", "s.json"), 0),
        (("check", "--source", "bad.json"), 3),
        (("check", "--source", "s.json", "--journal", "j"), 2),
        (("run", "--source", "bad.json", "--journal", "j"), 3),
        (("run", "--source", "s.json", "--journal", "j", "--args", "{"), 4),
        (("run", "--source", "missing.json", "--journal", "j"), 7),
        (("run", "--source", "s.json", "--jurnal", "j"), 2),
        (("run", "--journal", "j", "x"), 2),
        (("resume", "--journal", "j"), 6),
        *(((*words, "--journal", "j"), 6) for words in REPORTS),
    ]
    for words, wanted in rows:
        status, _, _ = call(folder, *words)
        assert status == wanted, (words, status)
        assert not is_there(folder, "j"), words
    # (no one writes into it, so a program that opens it waits)
    os.mkfifo(f"{folder}/fifo")
    assert call(folder, "run", "--source", "fifo", "x")[0] == 2
    assert call(folder, "run", "--source", "fifo", "--args", "{")[0] == 4
    assert call(folder, "run", "--source", "s.json", "--journal", "no_such_folder/j")[0] == 9


def read_only(folder):
    """A finished journal that can only be read is resumed, and told of; one that isn't finished is told of, can't be gone on with, and stays."""
    write(folder, "s.json", SEVEN)
    assert call(folder, "run", "--source", "s.json", "--journal", "j")[:2] == (0, b"7\n")
    whole = read(folder, "j")
    write(folder, "k", whole[: whole.rindex(b"\x02") - 4 - 1] + b"\x00")
    shutil.copy(PROGRAM, f"{folder}/program")
    for name in ("j", "k"):
        os.chmod(f"{folder}/{name}", 0o444)
    os.chmod(folder, 0o755)
    how = {"user": NOBODY} if os.geteuid() == 0 else {}
    words = [f"{folder}/program", "resume", "--journal"]
    ended = subprocess.run([*words, "j"], cwd=folder, stdin=subprocess.DEVNULL, stdout=subprocess.PIPE, timeout=60, **how)
    assert (ended.returncode, ended.stdout) == (0, b"7\n"), ended
    before = read(folder, "k")
    ended = subprocess.run([*words, "k"], cwd=folder, stdin=subprocess.DEVNULL, stdout=subprocess.PIPE, timeout=60, **how)
    assert (ended.returncode, ended.stdout) == (9, b""), ended
    for name, state in (("j", b"succeeded"), ("k", b"active")):
        for report in REPORTS:
            words = [f"{folder}/program", *report, "--journal", name]
            ended = subprocess.run(words, cwd=folder, stdin=subprocess.DEVNULL, stdout=subprocess.PIPE, timeout=60, **how)
            assert ended.returncode == 0 and (state in ended.stdout or report == ("log",) and not ended.stdout), ended
    assert read(folder, "k") == before and read(folder, "j") == whole


def synced_folder(folder):
    """The entry of a new journal in its folder is synced, by what the system was asked, where strace is there."""
    if not shutil.which("strace"):
        print("edge: strace isn't there, so the sync of a folder isn't looked at")
        return
    os.mkdir(f"{folder}/inner")
    write(folder, "s.json", SEVEN)
    words = ["strace", "-y", "-e", "trace=fsync", "-o", "trace", PROGRAM, "run", "--source", "s.json", "--journal", "inner/j"]
    assert subprocess.run(words, cwd=folder, stdin=subprocess.DEVNULL, stdout=subprocess.PIPE, timeout=60).returncode == 0
    synced = read(folder, "trace").decode()
    assert f"/inner>" in synced and "/inner/j>" in synced, synced
    assert call(folder, "resume", "--journal", "inner/j")[:2] == (0, b"7\n")


def traced(folder, calls, *words, inject=None):
    """Runs the program under strace, and returns its status, what it printed and complained of, and those of these calls that it made."""
    shell = ["strace", "-y", "-o", "trace", "-e", f"trace={calls}", *(["-e", f"inject={inject}"] if inject else []), PROGRAM, *words]
    ended = subprocess.run(shell, cwd=folder, stdin=subprocess.DEVNULL, stdout=subprocess.PIPE, stderr=subprocess.PIPE, timeout=60)
    return (ended.returncode, ended.stdout, ended.stderr), read(folder, "trace").decode(errors="replace").splitlines()


def failed_sync(folder):
    """Behind a sync that failed the system may take pages for written that aren't. So `run` and `resume` write a byte of each page of a journal that
    they find, before they sync it; what only tells writes nothing. The journal stays as it reads. By what the system was asked, where strace is there."""
    if not shutil.which("strace"):
        print("edge: strace isn't there, so what follows a failed sync isn't looked at")
        return
    write(folder, "s.json", json.dumps([{"a": {"assign": [{"t": "x" * 30_000}]}}, {"b": {"return": 7}}]).encode())
    run = ("run", "--source", "s.json", "--journal", "j")
    said, _ = traced(folder, "fsync", *run, inject="fsync:error=EIO:when=5")
    assert said == (9, b"", b"workflow: cannot read, write or sync j\n"), said
    before = read(folder, "j")
    assert len(before) > 30_000
    for words in ((*words, "--journal", "j") for words in REPORTS):
        said, calls = traced(folder, "fsync,pwrite64,write", *words)
        assert said[0] in (0, 6) and not any("/j>" in it and "write" in it for it in calls), (said, calls)
    for words in (("resume", "--journal", "j"), run):
        said, calls = traced(folder, "fsync,pwrite64", *words)
        assert said in ((0, b"7\n", b""), (6, b"not started\n", b""), (5, b"already started\n", b"")), said
        first = next(at for at, it in enumerate(calls) if it.startswith("fsync"))
        anew = [int(re.search(r", 1, (\d+)\) += 1$", it).group(1)) for it in calls[:first]]
        assert "/j>" in calls[first] and anew == list(range(0, len(before), 4096)), calls[: first + 1]
        before = read(folder, "j")
    assert call(folder, "resume", "--journal", "j")[:2] == (0, b"7\n")


def bad_paths(folder):
    """A journal that can't be used is left alone, and a line on standard error tells why; a new journal is its owner's alone."""
    write(folder, "s.json", SEVEN)
    run = ("run", "--source", "s.json", "--journal")
    os.mkdir(f"{folder}/folder")
    os.symlink("nowhere/j", f"{folder}/loose")
    os.symlink("round", f"{folder}/round")
    os.mkdir(f"{folder}/shut", 0o555)
    rows = [
        ("no_such_folder/j", b"workflow: there is no folder for no_such_folder/j\n"),
        ("s.json/j", b"workflow: there is no folder for s.json/j\n"),
        ("folder", b"workflow: folder is a folder\n"),
        ("loose", b"workflow: loose is a link that leads nowhere\n"),
        ("round", b"workflow: round is a link that leads nowhere\n"),
    ]
    for name, wanted in rows:
        said = call(folder, *run, name)
        assert said == (9, b"", wanted), (name, said)
    assert os.readlink(f"{folder}/loose") == "nowhere/j" and not is_there(folder, "nowhere") and not os.listdir(f"{folder}/folder")
    shutil.copy(PROGRAM, f"{folder}/program")
    os.chmod(folder, 0o755)
    how = {"user": NOBODY} if os.geteuid() == 0 else {}
    words = [f"{folder}/program", *run, "shut/j"]
    ended = subprocess.run(words, cwd=folder, stdin=subprocess.DEVNULL, stdout=subprocess.PIPE, stderr=subprocess.PIPE, timeout=60, **how)
    assert (ended.returncode, ended.stdout, ended.stderr) == (9, b"", b"workflow: no permission to use shut/j\n"), ended
    if shutil.which("strace"):
        said, _ = traced(folder, "pwrite64", *run, "full", inject="pwrite64:error=ENOSPC")
        assert said == (9, b"", b"workflow: no room for full\n"), said
    assert call(folder, *run, "j", umask=0)[:2] == (0, b"7\n")
    assert os.stat(f"{folder}/j").st_mode & 0o777 == 0o600


def bad_lines(folder):
    """Behind a line that is none, standard error tells where help is."""
    for words in ((), ("walk",), ("run", "--journal")):
        status, printed, said = call(folder, *words)
        assert status == 2 and printed.startswith(b"bad line at word ") and said == b"workflow: `workflow --help` tells which lines there are\n", said
    assert call(folder, "--help")[2] == b""


def file_limit(folder):
    """A limit on the size of files ends a run by a signal, or by status 9 where that is ignored; either way the execution goes on without it."""
    write(folder, "s.json", json.dumps([{"a": {"assign": [{"t": "x" * 30_000}]}}, {"b": {"return": 7}}]).encode())
    for name, wanted, how in (("j", (-25, b"", b""), {}), ("k", (9, b"", b"workflow: no room for k\n"), {"restore_signals": False})):
        shell = ["sh", "-c", 'ulimit -f 8; exec "$0" "$@"', PROGRAM, "run", "--source", "s.json", "--journal", name]
        ended = subprocess.run(shell, cwd=folder, stdin=subprocess.DEVNULL, stdout=subprocess.PIPE, stderr=subprocess.PIPE, timeout=60, **how)
        assert (ended.returncode, ended.stdout, ended.stderr) == wanted, ended
        said = call(folder, "resume", "--journal", name)
        if said[:2] == (6, b"not started\n"):
            said = call(folder, "run", "--source", "s.json", "--journal", name)
        assert said == (0, b"7\n", b""), said


SET_BACK = b"""
#define _GNU_SOURCE
#include <sys/syscall.h>
#include <time.h>
#include <unistd.h>
int clock_gettime(clockid_t clock, struct timespec *time) {
    static int readings;
    long answer = syscall(SYS_clock_gettime, clock, time);
    if (clock == CLOCK_REALTIME && readings++) time->tv_sec -= 3600;
    return answer;
}
"""


def clock_set_back(folder):
    """A sleep of a second ends though the wall clock is set back by an hour behind its first reading, where a C compiler is there."""
    if not shutil.which("cc"):
        print("edge: cc isn't there, so a clock that is set back isn't looked at")
        return
    write(folder, "back.c", SET_BACK)
    subprocess.run(["cc", "-shared", "-fPIC", "-o", "back.so", "back.c"], cwd=folder, check=True, timeout=60)
    write(folder, "s.json", SLEEP)
    said = call(folder, "run", "--source", "s.json", "--journal", "j", "--waits", "1", env={**os.environ, "LD_PRELOAD": f"{folder}/back.so"})
    assert said == (0, b"7\n", b""), said


def calls_of(count, url):
    """A source that makes so many calls, and returns the sum of the answers' codes."""
    steps = [{"get": {"call": "http.get", "args": {"url": url}, "result": "answer"}}, {"add": {"assign": [{"sum": "${sum + answer.code}"}]}}]
    loop = {"for": {"value": "i", "range": [1, count], "steps": steps}}
    return json.dumps([{"first": {"assign": [{"sum": 0}]}}, {"all": loop}, {"last": {"return": "${sum}"}}]).encode()


def keep_open(request, connection):
    """Answers a request, and keeps the connection open until the other side closes it."""
    connection.sendall(b"HTTP/1.1 200 OK\r\nContent-Length: 1\r\n\r\n7")
    wait_for_close(connection)


def many_calls(folder):
    """A connection is closed once its answer is whole: so thousands of calls need no more descriptors than one, whatever their services keep."""
    service = Service(keep_open)
    write(folder, "s.json", calls_of(CALLS, f"http://127.0.0.1:{service.port}/"))
    shell = ["sh", "-c", f'ulimit -n {DESCRIPTORS}; exec "$0" "$@"', PROGRAM, "run", "--source", "s.json"]
    ended = subprocess.run(shell, cwd=folder, stdin=subprocess.DEVNULL, stdout=subprocess.PIPE, stderr=subprocess.PIPE, timeout=300)
    assert (ended.returncode, ended.stdout) == (0, b"%d\n" % (200 * CALLS)), ended
    assert len(service.settle()) == CALLS
    service.close()


def streaming_on(folder):
    """What a service streams behind its answer wakes no wait: one is for the answer, and one for the sleep behind it."""
    ended = threading.Event()

    def stream(request, connection):
        try:
            connection.sendall(b"HTTP/1.1 200 OK\r\nContent-Length: 1\r\n\r\n7")
            while True:
                connection.sendall(b"x" * 65_536)
        finally:
            ended.set()

    service = Service(stream)
    url = f"http://127.0.0.1:{service.port}/"
    steps = [{"a": {"call": "http.get", "args": {"url": url}, "result": "r"}}, {"b": {"call": "sys.sleep", "args": {"seconds": 1}}}, {"c": {"return": "${r.code}"}}]
    write(folder, "s.json", json.dumps(steps).encode())
    said = call(folder, "run", "--source", "s.json", "--waits", "2")
    assert said == (0, b"200\n", b""), said
    assert ended.wait(60), "the connection isn't closed"
    service.close()


def one_lookup(folder):
    """A host is looked up once, however many calls go to it: by how often the system's list of hosts is opened, where strace is there."""
    if not shutil.which("strace"):
        print("edge: strace isn't there, so how often a name is looked up isn't looked at")
        return
    service = Service(keep_open)
    opened = []
    for count in (1, 5):
        write(folder, "s.json", calls_of(count, f"http://localhost:{service.port}/"))
        said, calls = traced(folder, "open,openat", "run", "--source", "s.json")
        assert said[:2] == (0, b"%d\n" % (200 * count)), said
        opened.append(sum('"/etc/hosts"' in it for it in calls))
    assert opened[0] == opened[1] > 0, opened
    service.settle()
    service.close()


def counted(folder, *words):
    """Runs the program under valgrind, and returns its status with what it printed, and how many instructions it took."""
    shell = ["valgrind", "--tool=callgrind", "--callgrind-out-file=/dev/null", PROGRAM, *words]
    ended = subprocess.run(shell, cwd=folder, stdin=subprocess.DEVNULL, stdout=subprocess.PIPE, stderr=subprocess.PIPE, timeout=300)
    return (ended.returncode, ended.stdout), int(re.search(rb"Collected : (\d+)", ended.stderr).group(1))


def instructions(folder, items, reads):
    """How many instructions a run takes that reads the first item of a list of so many items so many times."""
    steps = [{"x": {"assign": [{"x": [1] * items}]}}]
    steps += [{f"s{i}": {"assign": [{"y": "${x[0]}"}] * 50}} for i in range(reads // 50)]
    write(folder, "s.json", json.dumps(steps, separators=(",", ":")).encode())
    ended, count = counted(folder, "run", "--source", "s.json", "--journal", f"j{items}_{reads}")
    assert ended == (0, b"null\n"), ended
    return count


def large_value(folder):
    """Reading a part of a large value costs what reading a part of a small one does, by counted instructions, where valgrind is there."""
    if not shutil.which("valgrind"):
        print("edge: valgrind isn't there, so the cost of reading a large value isn't looked at")
        return
    small = instructions(folder, 15, 800) - instructions(folder, 15, 400)
    large = instructions(folder, 6000, 800) - instructions(folder, 6000, 400)
    assert large <= 2 * small, f"400 reads of a large value take {large} instructions, of a small one {small}"


def steps_of(step, room):
    """As many steps of one form as fit, each with a name of its own."""
    steps, size = [], 2
    for number in range(room):
        text = f'{{"s{number}":{step(number)}}}'
        size += len(text) + 1
        if size > room:
            return "[" + ",".join(steps) + "]"
        steps.append(text)


def large_sources():
    """Sources of nearly 131,072 bytes, each large in another way, by its name."""
    reads = "+".join(["n"] * 195)
    lines = "".join(f"- s{number}:\n    return: 1\n" for number in range(9000))
    shapes = {
        "steps that return": lambda number: '{"return":1}',
        "steps that go on": lambda number: "{}",
        "steps that jump back": lambda number: f'{{"next":"s{number // 2}"}}',
        "a name in each step, read in the next": lambda number: f'{{"assign":[{{"n{number}":"${{n{max(number - 1, 0)}}}"}}]}}',
        "60,000 reads of one name": lambda number: '{"assign":[{"n":"${' + reads + '}"}]}',
    }
    return {
        **{name: steps_of(step, LONGEST) for name, step in shapes.items()},
        "50 blocks in each other": '[{"b":{"steps":' * 50 + steps_of(shapes["steps that return"], LONGEST - 1000) + "}}]" * 50,
        "entries of one step": '[{"s":{"assign":[' + ",".join(['{"n":1}'] * 16_000) + "]}}]",
        "one text of many expressions": '[{"s":{"return":"' + "${1}" * 32_000 + '"}}]',
        "brackets": "[" * LONGEST,
        "blanks": " " * LONGEST,
        "lines of YAML": lines[: LONGEST].rsplit("- s", 1)[0],
    }


def cost_of_a_source(folder):
    """A source of up to 131,072 bytes in any shape is accepted or refused within a bound on counted instructions, where valgrind is there."""
    for shape, source in large_sources().items():
        data = source.encode()
        assert LONGEST // 2 < len(data) <= LONGEST, (shape, len(data))
        write(folder, "s", data)
        status, printed, said = call(folder, "check", "--source", "s")
        fits = (status, printed) == (0, b"accepted\n") or status == 3 and printed.startswith(b"refused ")
        assert fits and not said, (shape, status, printed, said)
        if shutil.which("valgrind"):
            ended, count = counted(folder, "check", "--source", "s")
            assert ended == (status, printed), (shape, ended)
            assert count <= MOST_INSTRUCTIONS, f"{shape}: {count} instructions"


def answers_of(count):
    """Answers with so many bytes of body: by their length, in one chunk, and in chunks of ten bytes."""
    chunked = b"HTTP/1.1 200 OK\r\nTransfer-Encoding: chunked\r\n\r\n"
    return {
        "by length": b"HTTP/1.1 200 OK\r\nContent-Length: %d\r\n\r\n" % count + b"x" * count,
        "in one chunk": chunked + b"%x\r\n" % count + b"x" * count + b"\r\n0\r\n\r\n",
        "in chunks": chunked + (b"a\r\n" + b"x" * 10 + b"\r\n") * (count // 10) + b"0\r\n\r\n",
    }


def hearing(answer):
    """How many instructions http_cases takes to hear an answer whole and in pieces: one by one up to 3,000 bytes, else 2,500 at a time."""
    case = f'answers ["{answer.hex()}","open"]\n'.encode()
    shell = ["valgrind", "--tool=callgrind", "--callgrind-out-file=/dev/null", ANSWERS]
    ended = subprocess.run(shell, input=case, stdout=subprocess.PIPE, stderr=subprocess.PIPE, timeout=300)
    assert ended.returncode == 0, ended
    return int(re.search(rb"Collected : (\d+)", ended.stderr).group(1))


def cost_of_an_answer(folder):
    """A body that comes in pieces costs what its bytes do: twice as many cost twice as much, where valgrind is there."""
    if not shutil.which("valgrind"):
        print("edge: valgrind isn't there, so the cost of hearing a body isn't looked at")
        return
    for shape in answers_of(0):
        for size in [400, 50000]:
            first, second, third = (hearing(answers_of(times * size)[shape]) for times in [1, 2, 4])
            assert third - second <= 2.2 * (second - first), f"{shape}, from {size} bytes: {first}, {second}, {third} instructions"


def cost_of_calls(folder):
    """A wait costs what is open, not what was ever called: 16 times the calls take at most 20 times the instructions, where valgrind is there."""
    if not shutil.which("valgrind"):
        print("edge: valgrind isn't there, so the cost of many calls isn't looked at")
        return
    service = Service(keep_open)
    counts = []
    for calls in (125, 2000):
        write(folder, "s.json", calls_of(calls, f"http://127.0.0.1:{service.port}/"))
        ended, count = counted(folder, "run", "--source", "s.json")
        assert ended == (0, b"%d\n" % (200 * calls)), ended
        counts.append(count)
    service.settle()
    service.close()
    assert counts[1] <= 20 * counts[0], f"125 calls take {counts[0]} instructions, 2000 take {counts[1]}"


def main():
    tries = [closed_descriptors, held_journal, two_at_once, no_file_is_made, read_only, synced_folder, failed_sync, bad_paths, bad_lines, file_limit]
    tries += [clock_set_back, many_calls, streaming_on, one_lookup, large_value, cost_of_a_source, cost_of_an_answer, cost_of_calls]
    for it in tries:
        with tempfile.TemporaryDirectory() as folder:
            it(folder)
    print(f"edge: {len(tries)} tries of the built program passed")


if __name__ == "__main__":
    main()
