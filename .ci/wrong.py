#!/usr/bin/env python3
"""Tries the edits of wrong/: wrong bodies that the prover must refuse, beside those that the gate tries.

    python3 .ci/wrong.py [--beside N] [CRATE | CRATE/NAME ..]     those of the crates, or single ones; without names all
    python3 .ci/wrong.py --look                                   proves nothing: whether each edit can still be applied

An edit stands in wrong/CRATE/NAME.edit, in the form of those in crates/CRATE/must-fail/. The tree is copied aside, the edits are put there as
crates/CRATE/must-fail/, and `rt must-fail CRATE` tries them. Libraries that are built in this tree aren't built again; what is missing is built in
the copy first, and let go with it. `--beside` says how many crates are tried at a time (one), each in one process. There is a line for each edit,
and the exit status is 1 where one is let through or can't be applied. A crate's first edit costs its proof, each further one little.
"""

import concurrent.futures
import functools
import glob
import importlib.machinery
import importlib.util
import os
import re
import shutil
import subprocess
import sys
import tempfile

TOP = os.path.dirname(os.path.dirname(os.path.abspath(__file__)))
PARTS = ("src", "specs", "proofs")
TOLD = re.compile(r"rt: must-fail (\w+/[\w.-]+)\.edit: ((refused, as it must be|NOT REFUSED|BAD EDIT).*)")


def kit():
    """The kit's own command as a module: how it reads edits, and which libraries are built."""
    first_page = subprocess.run(["rt", "doc"], capture_output=True, text=True, check=True).stdout.strip()
    sys.dont_write_bytecode = True
    loader = importlib.machinery.SourceFileLoader("rt", f"{os.path.dirname(first_page)}/bin/rt")
    module = importlib.util.module_from_spec(importlib.util.spec_from_loader("rt", loader))
    loader.exec_module(module)
    return module


def edits(names):
    """The edits of wrong/ that are named, as CRATE/NAME, by their crate."""
    found = {}
    for path in sorted(glob.glob(f"{TOP}/wrong/*/*.edit")):
        crate, name = path.removesuffix(".edit").split("/")[-2:]
        if not names or crate in names or f"{crate}/{name}" in names:
            found.setdefault(crate, []).append(f"{crate}/{name}")
    known = {word for crate in found for word in (crate, *found[crate])}
    return found, [name for name in names if name not in known]


def look(chosen, rt):
    """Tells which edits can't be applied to the text as it stands."""
    bad = []
    for crate, names in chosen.items():
        for name in names:
            why = rt.read_edit(f"{TOP}/wrong/{name}.edit", f"{TOP}/crates/{crate}")[1]
            if why:
                bad.append(f"wrong/{name}.edit: {why}")
    print(*bad, sep="\n", end="\n" * bool(bad))
    count = sum(map(len, chosen.values()))
    print(f"wrong: {count} edits in {len(chosen)} crates, {len(bad)} of them can't be applied")
    return 1 if bad else 0


def link(there, here):
    """A second name of a file, or a copy where the two folders lie on different disks."""
    try:
        os.link(there, here)
    except OSError:
        shutil.copy2(there, here)


def built(rt):
    """The crates whose library is built here from the text as it stands."""
    # a stamp is reckoned from all that stands below a crate, so each is reckoned once
    rt.rtlib.Crate.stamp = functools.lru_cache(None)(rt.rtlib.Crate.stamp)
    os.chdir(TOP)
    return {crate.name for crate in rt.rtlib.crates_below(TOP) if not crate.is_program and crate.is_built()}


def copy_aside(room, chosen, rt):
    """Copies what the kit reads of the tree, with the libraries that are built, and puts the edits in place."""
    ready = built(rt)
    for name in ("crates.txt", "HANDLES"):
        shutil.copy2(f"{TOP}/{name}", f"{room}/{name}")
    for crate in sorted(os.listdir(f"{TOP}/crates")):
        there, here = f"{TOP}/crates/{crate}", f"{room}/crates/{crate}"
        for part in PARTS:
            if os.path.isdir(f"{there}/{part}"):
                shutil.copytree(f"{there}/{part}", f"{here}/{part}")
        if crate in ready:
            shutil.copytree(f"{there}/out/rlib", f"{here}/out/rlib", copy_function=link)
    for crate, names in chosen.items():
        os.makedirs(f"{room}/crates/{crate}/must-fail")
        for name in names:
            shutil.copy2(f"{TOP}/wrong/{name}.edit", f"{room}/crates/{crate}/must-fail/")


def length(crate):
    """How many bytes a crate has: the longest are tried first."""
    return sum(os.path.getsize(path) for part in PARTS for path in glob.glob(f"{TOP}/crates/{crate}/{part}/**/*.*", recursive=True))


def tried(room, crate, names):
    """What the prover says of a crate's edits: by edit the line and whether it is refused."""
    ran = subprocess.run(["rt", "must-fail", crate], cwd=room, stdin=subprocess.DEVNULL, stdout=subprocess.PIPE, stderr=subprocess.STDOUT, text=True, errors="replace")
    said = {found[1]: found[2] for found in map(TOLD.match, ran.stdout.splitlines()) if found}
    for name in names:
        verdict = said.get(name, f"NOT TRIED: {' / '.join(ran.stdout.splitlines()[-3:])[:300]}")
        print(f"wrong/{name}.edit: {verdict}", flush=True)
    return [name for name in names if not said.get(name, "").startswith("refused")]


def main(words):
    beside = 1
    if "--beside" in words:
        at = words.index("--beside")
        beside, words = int(words[at + 1]), words[:at] + words[at + 2 :]
    is_look = "--look" in words
    chosen, unknown = edits([word for word in words if word != "--look"])
    if unknown:
        print("wrong: no edits of", *unknown)
        return 2
    rt = kit()
    if is_look:
        return look(chosen, rt)
    with tempfile.TemporaryDirectory(prefix="wrong-") as room:
        copy_aside(room, chosen, rt)
        build = [sys.executable, f"{TOP}/.ci/build_libraries.py", "--below", "--lanes", str(beside), room, *chosen]
        if subprocess.run(build).returncode:
            print("wrong: a library isn't proved, so the crates above it weren't tried")
            return 1
        with concurrent.futures.ThreadPoolExecutor(beside) as pool:
            order = sorted(chosen, key=length, reverse=True)
            failed = [name for bad in pool.map(lambda crate: tried(room, crate, chosen[crate]), order) for name in bad]
    count = sum(map(len, chosen.values()))
    print(f"wrong: {count} edits in {len(chosen)} crates, {count - len(failed)} of them refused")
    if failed:
        print("FAILED:", *failed)
    return 1 if failed else 0


if __name__ == "__main__":
    sys.exit(main(sys.argv[1:]))
