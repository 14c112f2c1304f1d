"""Runs the transcripts of a document: its blocks fenced as `console`, as a reader would type them.

A line `$ COMMAND` is a command, lines `> ..` behind it go on with it, and all else up to the next command is what it prints, on both outputs. The
commands of a document run one behind another in one shell, in a fresh folder that has `examples`, with the built `workflow` on the path. A number of
five digits in a command is a port: a free one is taken in its place. Behind a command that ends with `&` a second passes, and until somebody
listens on each port that it names, so that what it began is there. Behind `kill -9 $!` it waits until that process has gone.

What varies is marked. In what is printed `...` stands for any text of a line, and a line of `...` alone for any lines. Behind the word `console`
may stand `numbers`, where each number stands for any number, or `outside`: such a block needs a tool or a service that isn't here, and isn't run.
"""

import os
import re
import signal
import socket
import subprocess
import tempfile
import threading
import time

FENCE = re.compile(r"^```console(?P<marks>[ \w]*)\n(?P<text>.*?)^```$", re.M | re.S)
PORT = re.compile(r"(?<![\w.])\d{5}\b")
# what a shell says at some later moment of a job that was killed
NOTICE = re.compile(r"^bash: line \d+: +\d+ (?:Killed|Terminated) .*\n", re.M)
END = "end of the command"
LONGEST = 120


class Command:
    """A command of a transcript, with the line of the document where it stands and what is to be printed."""

    def __init__(self, place, text, marks):
        self.place, self.text, self.marks, self.wanted = place, text, marks, []

    def pattern(self):
        """What is to be printed, as a pattern over its lines, each with its end."""
        parts = []
        for line in self.wanted:
            if line == "...":
                parts.append(r"(?:.*\n)*")
                continue
            part = ".*".join(re.escape(it) for it in line.split("..."))
            parts.append((re.sub(r"\d+", r"\\d+", part) if "numbers" in self.marks else part) + r"\n")
        return "".join(parts)

    def fault(self, printed):
        """What differs between what is to be printed and what was, or nothing."""
        if re.fullmatch(self.pattern(), printed):
            return []
        wanted = "".join(f"{line}\n" for line in self.wanted)
        return [f"{self.place}: $ {self.text}\n--- wanted\n{wanted}--- got\n{printed}"]


def free_port():
    with socket.create_server(("127.0.0.1", 0)) as door:
        return door.getsockname()[1]


def wait_for_ports(command):
    """Waits until somebody listens on each port that a command names, for a while."""
    ends = time.monotonic() + 20
    while time.monotonic() < ends:
        with open("/proc/net/tcp", encoding="ascii") as file:
            rows = [line.split() for line in file.readlines()[1:]]
        listening = {int(row[1].rpartition(":")[2], 16) for row in rows if row[3] == "0A"}
        if all(int(it) in listening for it in PORT.findall(command)):
            return
        time.sleep(0.05)


class Shell:
    """A shell in a folder, which takes one command after another."""

    def __init__(self, folder, program):
        os.mkdir(f"{folder}/.bin")
        os.symlink(program, f"{folder}/.bin/workflow")
        os.symlink(os.path.abspath("examples"), f"{folder}/examples")
        self.ports = {}
        environment = {**os.environ, "PATH": f"{folder}/.bin:{os.environ['PATH']}", "HOME": folder, "LC_ALL": "C.UTF-8"}
        self.process = subprocess.Popen(
            ["bash", "--norc", "--noprofile"], cwd=folder, env=environment, start_new_session=True, text=True,
            stdin=subprocess.PIPE, stdout=subprocess.PIPE, stderr=subprocess.DEVNULL,
        )

    def run(self, command):
        """Runs a command, and gives what it printed. The status that it leaves is there for the next one."""
        command = PORT.sub(lambda port: str(self.ports.setdefault(port[0], free_port())), command)
        gone = "wait $!" if command.endswith("kill -9 $!") else ":"
        lines = [f"{{ {command}\n}} 2>&1 < /dev/null", "left=$?", gone, f"echo '{END}'", "(exit $left)"]
        self.process.stdin.write("\n".join(lines) + "\n")
        self.process.stdin.flush()
        alarm = threading.Timer(LONGEST, self.close)
        alarm.start()
        printed = ""
        for line in self.process.stdout:
            front, end, _ = line.partition(END)
            printed += front
            if end:
                break
        alarm.cancel()
        if command.endswith("&"):
            time.sleep(1)
            wait_for_ports(command)
        printed = NOTICE.sub("", printed)
        return printed + "\n" if printed and not printed.endswith("\n") else printed

    def close(self):
        """Ends the shell, and what it left in the background."""
        try:
            os.killpg(self.process.pid, signal.SIGKILL)
        except ProcessLookupError:
            pass
        self.process.wait()


def commands_of(path):
    """The commands of a document, in their order."""
    with open(path, encoding="utf-8") as file:
        text = file.read()
    for block in FENCE.finditer(text):
        marks, command = block.group("marks").split(), None
        first = text.count("\n", 0, block.start("text")) + 1
        for number, line in enumerate(block.group("text").splitlines(), first):
            if line.startswith("$ "):
                command = Command(f"{path}:{number}", line[2:], marks)
                yield command
            elif command and not command.wanted and line.startswith("> "):
                command.text += "\n" + line[2:]
            elif command:
                command.wanted.append(line)


def run_transcripts(path, program):
    """Runs the transcripts of a document. Gives how many commands were run, how many need something outside, and what differs."""
    commands = list(commands_of(path))
    here = [it for it in commands if "outside" not in it.marks]
    with tempfile.TemporaryDirectory() as folder:
        shell = Shell(folder, program)
        try:
            faults = [fault for command in here for fault in command.fault(shell.run(command.text))]
        finally:
            shell.close()
    return len(here), len(commands) - len(here), faults
