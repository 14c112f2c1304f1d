#!/usr/bin/env python3
"""Proves and builds the libraries of a tree, several at a time, the longest chain of crates first. It is no gate: `rt ci` is.

    python3 .ci/build_libraries.py [--lanes N] [FOLDER] [CRATE ..]             all libraries of this folder, or these and those below them
    python3 .ci/build_libraries.py --below [--lanes N] FOLDER CRATE ..         only those below them

It leaves each library in crates/NAME/out/rlib with its stamp, where `rt check` and `rt run` find it. So a new machine has all libraries in the time
of the longest chain, and another copy of the tree can take them, since they are known by their contents. A library that is built is kept. What each
printed stands in its out/build.log. `--lanes` says how many are built at a time (four).
"""

import functools
import os
import shutil
import subprocess
import sys
import threading
import time

KIT = os.path.dirname(subprocess.run(["rt", "doc"], capture_output=True, text=True, check=True).stdout.strip())
sys.dont_write_bytecode = True
sys.path.insert(0, f"{KIT}/bin")
import rtlib  # noqa: E402


def keep_stamps():
    """A stamp is reckoned from all that stands below a crate, so each is reckoned once. Nothing may change meanwhile."""
    rtlib.Crate.stamp = functools.lru_cache(None)(rtlib.Crate.stamp)


def build(crate):
    """Builds a library from nothing: whether it is proved, and what to say."""
    if crate.is_built():
        return True, ""
    began, folder, stamp = time.time(), os.path.dirname(crate.rlib), crate.stamp()
    shutil.rmtree(folder, ignore_errors=True)
    os.makedirs(folder)
    words = [rtlib.RATTLE, "build", *crate.words(["--jobs", "1"], keeps=False), "--statements", "-o", crate.rlib]
    with open(f"{crate.folder}/out/build.log", "w", encoding="utf-8") as log:
        well = subprocess.run(words, cwd=crate.folder, stdout=log, stderr=subprocess.STDOUT).returncode == 0
    if well:
        with open(f"{folder}/stamp", "w", encoding="utf-8") as it:
            it.write(stamp)
    return well, f"{crate.name} {'built' if well else 'REFUSED, see its out/build.log'} in {time.time() - began:.0f} s"


class Lanes:
    """Builds libraries side by side, each once those below it are there; of those that can be built the one below the longest chain first."""

    def __init__(self, crates):
        self.crates = {crate.name: crate for crate in crates}
        self.done, self.failed, self.running, self.turn = set(), set(), set(), threading.Condition()
        self.lengths = {}

    def length(self, name):
        """How many lines stand in the longest chain of crates from this one upwards."""
        if name not in self.lengths:
            above = [it.name for it in self.crates.values() if name in {dep.name for dep in it.deps}]
            self.lengths[name] = self.crates[name].count(rb"\n") + max(map(self.length, above), default=0)
        return self.lengths[name]

    def next(self):
        """The next library to build, or None where none can come any more."""
        while True:
            left = [it for it in self.crates.values() if it.name not in self.done | self.failed | self.running]
            ready = [it for it in left if all(dep.name in self.done for dep in it.deps if dep.name in self.crates)]
            if ready:
                return max(ready, key=lambda it: self.length(it.name))
            if not self.running:
                return None
            self.turn.wait()

    def work(self):
        while True:
            with self.turn:
                crate = self.next()
                if crate is None:
                    return
                self.running.add(crate.name)
            well, said = build(crate)
            with self.turn:
                self.running.discard(crate.name)
                (self.done if well else self.failed).add(crate.name)
                if said:
                    print(f"{said} ({len(self.done)} of {len(self.crates)})", flush=True)
                self.turn.notify_all()

    def run(self, lanes):
        threads = [threading.Thread(target=self.work) for _ in range(lanes)]
        for it in threads:
            it.start()
        for it in threads:
            it.join()
        return len(self.done) == len(self.crates)


def main(words):
    lanes, is_below = 4, "--below" in words
    words = [word for word in words if word != "--below"]
    if "--lanes" in words:
        at = words.index("--lanes")
        lanes, words = int(words[at + 1]), words[:at] + words[at + 2 :]
    os.chdir((words or ["."])[0])
    keep_stamps()
    known = {it.name: it for it in rtlib.crates_below(os.getcwd())}
    unknown = [name for name in words[1:] if name not in known]
    if unknown:
        print("build_libraries: no crates", *unknown)
        return 2
    named = [known[name] for name in words[1:]] or list(known.values())
    wanted = {dep.name: dep for crate in named for dep in [*crate.below(), *([] if is_below else [crate])]}
    return 0 if Lanes([it for it in wanted.values() if not it.is_program]).run(lanes) else 1


if __name__ == "__main__":
    sys.exit(main(sys.argv[1:]))
