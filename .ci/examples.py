#!/usr/bin/env python3
"""Runs the examples, each source of docs/REFUSALS.md and the transcripts of the documents on the built program, and compares what it prints.

An example is examples/NAME.yaml with what `run` prints in NAME.out and its exit status in NAME.status (0 where there is none). It is run with
a journal, and then resumed: that prints the same. Its layout by `format` is run too, and gives the same. `check` accepts it.

NAME.show has what `show` prints of the journal then, and NAME.log what `log` does, without the readings of the clock that begin its lines.

NAME.args has further words of its command line, one in each line. NAME.service.json is a map of a `host`, and of `calls`: the bytes that are
`sent` to it and the `answer`, in their order. A service on loopback answers them; a run sends these and no others, and a resumption nothing.
Such an example is also run as a reader does it: by the command that examples/serve.py prints.

The transcripts are those of README.md and of docs/USING.md, MOVING.md, OPERATING.md and JOURNAL.md; .ci/transcripts.py says how they are written.

What fails is told, with what was wanted and what came, and the rest goes on. Words behind the program's path name what is tried: examples by
their names, `refusals`, `transcripts`; without them all is.
"""

import glob
import json
import os
import re
import subprocess
import sys
import tempfile

sys.dont_write_bytecode = True
from service import Service
from transcripts import run_transcripts

PROGRAM = os.path.abspath(sys.argv[1] if len(sys.argv) > 1 else "crates/workflow/out/workflow")
DOCUMENTS = ("README.md", "docs/USING.md", "docs/MOVING.md", "docs/OPERATING.md", "docs/JOURNAL.md")
PAIR = re.compile(
    r"```(?:yaml|json)\n(?P<bad>.*?)```\n\n    (?P<refusal>refused .*?)\n.*?```(?:yaml|json)\n(?P<good>.*?)```\n\n    (?P<line>.*?)\n", re.S
)
FAULTS = []


def look(what, wanted, got):
    """Keeps what was wanted and what came, where they differ."""
    if wanted != got:
        FAULTS.append(f"{what}\n    wanted {wanted!r}\n    got    {got!r}")


class Answers:
    """The service of an example, where it has one."""

    def __init__(self, name):
        self.name, self.calls, self.words = name, [], []
        if os.path.exists(f"{name}.service.json"):
            told = json.loads(read(f"{name}.service.json"))
            self.calls = [(call["sent"].encode(), call["answer"].encode()) for call in told["calls"]]
            self.service = Service(self.answer)
            self.words = ["--route", f"{told['host']}=127.0.0.1:{self.service.port}"]

    def answer(self, request, connection):
        """Answers a request that the example has, and closes the connection of any other without a byte."""
        for sent, answer in self.calls:
            if sent == request:
                connection.sendall(answer)
                return

    def look(self, what, runs):
        """Looks whether so many runs have sent what they should."""
        if self.calls:
            look(f"{what}: what was sent", [sent for sent, _ in self.calls] * runs, self.service.settle())

    def close(self):
        if self.calls:
            self.service.close()


def read(path):
    with open(path, "rb") as file:
        return file.read()


def call(source, *words):
    """Runs the program to its end, and returns its status and what it printed."""
    ended = subprocess.run([PROGRAM, *words], input=source, stdout=subprocess.PIPE, stderr=subprocess.PIPE, timeout=60)
    return ended.returncode, ended.stdout


def look_at_reports(name, journal):
    """Looks at what is told of a journal, where the example has it."""
    for command in ("show", "log"):
        if os.path.exists(f"{name}.{command}"):
            code, told = call(b"", command, "--journal", journal)
            lines = told.splitlines(keepends=True)
            if command == "log":
                lines = [line.partition(b" ")[2] for line in lines]
            look(f"{name}: {command}", (0, read(f"{name}.{command}")), (code, b"".join(lines)))
            if command == "show":
                # (behind all turns it had come to what it has come to)
                look(f"{name}: at", (code, told), call(b"", "at", "--turn", "4294967295", "--journal", journal))


def one_example(name, path, journal):
    """Tries an example."""
    status = int(read(f"{name}.status")) if os.path.exists(f"{name}.status") else 0
    wanted, source, answers = (status, read(f"{name}.out")), read(path), Answers(name)
    words = read(f"{name}.args").decode().splitlines() if os.path.exists(f"{name}.args") else []
    words += answers.words
    look(f"{name}: check", (0, b"accepted\n"), call(b"", "check", "--source", path))
    look(f"{name}: run", wanted, call(source, "run", "--source", path, "--journal", journal, *words))
    answers.look(f"{name}: run", 1)
    look(f"{name}: resume", wanted, call(b"", "resume", "--journal", journal))
    answers.look(f"{name}: resume", 1)
    look_at_reports(name, journal)
    code, laid_out = call(source, "format")
    look(f"{name}: format", 0, code)
    look(f"{name}: run of its layout", wanted, call(laid_out, "run", *words))
    answers.look(f"{name}: run of its layout", 2)
    answers.close()
    if answers.calls:
        serve_by_hand(name, wanted)


def serve_by_hand(name, wanted):
    """Runs the command that examples/serve.py prints of an example, as a reader does."""
    script = [sys.executable, "examples/serve.py", os.path.basename(name)]
    with subprocess.Popen(script, stdin=subprocess.DEVNULL, stdout=subprocess.PIPE, stderr=subprocess.DEVNULL) as serving:
        printed = serving.stdout.readline().decode()
        with tempfile.TemporaryDirectory() as folder:
            os.symlink(os.path.abspath("examples"), f"{folder}/examples")
            os.symlink(PROGRAM, f"{folder}/workflow")
            path = {**os.environ, "PATH": f"{folder}:{os.environ['PATH']}"}
            ended = subprocess.run(["sh", "-c", printed], cwd=folder, env=path, stdout=subprocess.PIPE, stderr=subprocess.PIPE, timeout=60)
        serving.kill()
    look(f"{name}: the command of examples/serve.py, {printed.strip()}", wanted, (ended.returncode, ended.stdout))


def examples(names):
    """Tries each example, or those of these names, and returns how many there are."""
    sources = [path for path in sorted(glob.glob("examples/*.yaml")) if not names or os.path.basename(path)[: -len(".yaml")] in names]
    with tempfile.TemporaryDirectory() as folder:
        for path in sources:
            name = path[: -len(".yaml")]
            one_example(name, path, f"{folder}/{os.path.basename(name)}.journal")
    return len(sources)


def refusals():
    """Tries each pair of sources of docs/REFUSALS.md, and returns how many there are."""
    with open("docs/REFUSALS.md", encoding="utf-8") as file:
        pairs = [pair for section in re.split(r"^##+ ", file.read(), flags=re.M) for pair in PAIR.finditer(section)]
    for pair in pairs:
        for command in ("check", "run"):
            look(f"{command} of\n{pair['bad']}", (3, pair["refusal"].encode() + b"\n"), call(pair["bad"].encode(), command))
        look(f"check of\n{pair['good']}", (0, b"accepted\n"), call(pair["good"].encode(), "check"))
        look(f"run of\n{pair['good']}", (0, pair["line"].encode() + b"\n"), call(pair["good"].encode(), "run"))
    return len(pairs)


def transcripts():
    """Runs the transcripts, and returns how many commands were run and how many need something outside."""
    run, left = 0, 0
    for path in DOCUMENTS:
        here, outside, faults = run_transcripts(path, PROGRAM)
        run, left = run + here, left + outside
        FAULTS.extend(faults)
    return run, left


def main():
    asked = sys.argv[2:]
    names = [it for it in asked if it not in ("refusals", "transcripts")]
    FAULTS.extend(f"examples/{it}.yaml isn't there" for it in names if not os.path.exists(f"examples/{it}.yaml"))
    tried = examples(names) if names or not asked else 0
    pairs = refusals() if "refusals" in asked or not asked else 0
    run, left = transcripts() if "transcripts" in asked or not asked else (0, 0)
    assert asked or tried and pairs and run
    for fault in FAULTS:
        print(fault)
    print(f"examples: {tried} examples, {pairs} pairs of refusals and {run} commands of transcripts tried ({left} need something outside), {len(FAULTS)} faults")
    return 1 if FAULTS else 0


if __name__ == "__main__":
    sys.exit(main())
