#!/usr/bin/env python3
"""Checks that each lemma of a crate's proofs/, each definition of its specs/ and each public function of a library is used.

    python3 .ci/unused.py

Used is what the code names, in a clause, a tactic or a law, what an answer or an invariant names, and what one names that is used. An import alone
is no use. A block of `module` or `mutual` is used as a whole. Worked examples stand by themselves, in files named Computed.

A public function is used where the program reaches it (functions.py). What only case programs call is named, and stands in EXPECTED with the
reason why it is there all the same, or goes. The exit status is 1 where something isn't used.
"""

import glob
import os
import re
import sys

from functions import unreached

# public functions, or all those of a type or of a crate, that the program doesn't reach, by the reason why they are there
EXPECTED = {
    "for callbacks": ("wf_args::listen_of", "wf_callbacks::Endpoints", "wf_http_serve::reply_bytes", "wf_http_value::visit_value", "wf_visits"),
    "for parallel steps": ("wf_branches", "wf_moves::Task::branch", "wf_moves::Task::join", "wf_moves::Task::join_error"),
    "for snapshots": ("wf_states::state_value",),
    "hosts and sources in memory, for cases": ("wf_host::Address::is_same", "wf_host::MemHost", "wf_host::MemSource"),
    "laws that are told of a call": ("wf_ends::run_to_the_end", "wf_format_laws::layout_of", "wf_json_laws::compact", "wf_json_laws::read_again"),
    "one of what the program does many at once": ("wf_events::encode", "wf_machine::Machine::choose"),
    "told to who asks": ("wf_ast::Program::step_count", "wf_engine::Engine::waited"),
}

# definitions that nothing uses, by the reason why they are there
KEPT = {
    "that a task alone stands as one fact: no machine has a task alone any more, and they go when wf_frames is next changed": (
        "AreAlone-prop",
        "KeysLie-prop",
        "Layer-set",
        "OnlyInside-prop",
        "Standing-prop",
    ),
}

TOKEN = re.compile(r"[^\s(){}\[\];,«»]+")
HEAD = re.compile(r"^(?:abbrev |unfoldable |pub |record |data )*([^\s(){}\[\];,.:]+)(?:\s|$)")
INSIDE = re.compile(r"^\s+(?:abbrev |unfoldable )?(?:pub )?([^\s(){}\[\];,.:]+) :", re.M)
LISTED = re.compile(r"use Rattle\.([\w.+-]+?)\.\{([^}]*)\}")
WHOLE = re.compile(r"use Rattle\.([\w.+-]+?)(?: as ([\w-]+))?(?=[;\n])")
GIVEN = re.compile(r"^pub use Rattle\.([\w.+-]+?)\.\{([^}]*)\}", re.M)
GIVEN_WHOLE = re.compile(r"^pub use Rattle\.([\w.+-]+)$", re.M)
BY_PATH = re.compile(r"(?:crate|\w+)::proofs::([\w:]+)")
NO_UNIT = ("use", "ghost", "mod", "open", "unfolding", "infixl", "infixr", ")", "}", "]")


def given_on(path, text):
    """What a file of definitions gives on of other modules: names and whole modules, by what they are then."""
    found = re.match(r"crates/(\w+)/(proofs|specs)/(.*)\.antt$", path)
    if not found:
        return {}
    own = ".".join((found[1], found[2], found[3].replace("/", ".")))
    inside = own.removesuffix(".Lib")
    names = {}
    for module, listed in GIVEN.findall(text):
        for name in listed.split(","):
            there, _, here = name.strip().partition(" as ")
            names[inside, here or there] = (module, there)
    names.update({(inside + "." + module.rsplit(".", 1)[-1], None): (module, None) for module in GIVEN_WHOLE.findall(text)})
    return names


def without_comments(path, text):
    return re.sub(r"//.*", "", text) if path.endswith(".rt") else re.sub(r"(^|\s)--(\s.*|$)", r"\1", text, flags=re.M)


def module_of(path):
    """The module that a file of lemmas or definitions is: None of answers, invariants and code."""
    found = re.match(r"crates/(\w+)/(proofs|specs)/(.*)\.antt$", path)
    if not found or os.path.basename(path) in ("Answers.antt", "Invariants.antt", "Lib.antt"):
        return None
    return ".".join((found[1], found[2], found[3].replace("/", ".")))


def units(text):
    """The top-level lemmas and definitions of a file by name, with their texts; a block is one, under the number of its first line."""
    found, name = {}, None
    for number, line in enumerate(text.split("\n")):
        if line and not line[0].isspace():
            head = HEAD.match(line)
            if re.match(r"((pub )?module |(abbrev |unfoldable )?mutual)", line):
                name = number
            elif head and head[1] not in NO_UNIT:
                name = head[1]
            elif line.startswith(("use ", "pub mod", "mod ", "unfolding", "infix")):
                name = None
        if name is not None:
            found[name] = found.get(name, "") + line + "\n"
    return found


class Names:
    """What a file means by the names that it takes from elsewhere."""

    def __init__(self, text, modules):
        self.modules, self.taken, self.modules_by = modules, {}, {}
        for module, names in LISTED.findall(text):
            for name in names.split(","):
                there, _, here = name.strip().partition(" as ")
                self.taken[here or there] = (module, there)
        for module, here in WHOLE.findall(text + "\n"):
            self.modules_by[here or module.rsplit(".", 1)[-1]] = module

    def meant(self, own, text):
        """The lemmas and definitions that a text of the file names."""
        found = set()
        for token in TOKEN.findall(text):
            first, _, rest = token.partition(".")
            for name in (token, first):
                if name in self.taken:
                    found.add(self.taken[name])
                found.add((own, name))
            if rest and first in self.modules_by:
                found.add((self.modules_by[first], rest.split(".")[0]))
            if token.startswith("Rattle."):
                module, _, name = token[len("Rattle.") :].rpartition(".")
                found.add((module, name))
        for name, meant in self.taken.items():
            parts = [part for part in name.split("◌") if part]
            if "◌" in name and all(part in text for part in parts):
                found.add(meant)
        return found


def idle_functions():
    """Names the public functions that the program doesn't reach and that aren't expected, and the expected ones that are there no more or are reached."""
    found, count = unreached()
    expected = {name for names in EXPECTED.values() for name in names}
    met = set()
    idle = 0
    for function, is_of_cases in found:
        name = function.whole_name()
        known = expected & {name, name.rpartition("::")[0], function.crate}
        met |= known
        if not known:
            idle += 1
            print(f"{function.path}:{function.line}: {'only case programs call' if is_of_cases else 'nothing calls'} {name}")
    for name in sorted(expected - met):
        print(f"unused.py expects that the program doesn't reach {name}, but it does, or there is none")
    print(f"unused: {count} public functions, {len(found)} that the program doesn't reach, {idle} of them unexpected")
    return idle + len(expected - met)


def main():
    paths = [path for end in ("antt", "rt") for path in glob.glob(f"crates/**/*.{end}", recursive=True) if "/out/" not in path]
    texts = {path: without_comments(path, open(path, encoding="utf-8").read()) for path in paths}
    modules = {module_of(path): path for path in paths if module_of(path)}
    found, holders, todo, names, given = {}, {}, [], {}, {}
    for path, text in texts.items():
        module, names[path] = module_of(path), Names(text, modules)
        given.update(given_on(path, text))
        if not module:
            crate = path.split("/")[1]
            named = {(f"{crate}.proofs." + ".".join(it.split("::")[:-1]), it.split("::")[-1]) for it in BY_PATH.findall(text)}
            todo += names[path].meant(None, re.sub(r"^use .*$", "", text, flags=re.M)) | named
            continue
        for name, unit in units(text).items():
            found[module, name] = unit
            if isinstance(name, int) or re.match(r"(pub )?(record|data) ", unit):
                holders.update({(module, inside): (module, name) for inside in INSIDE.findall(unit)})
            if path.endswith("/Computed.antt") or "◌" in str(name):
                todo.append((module, name))
    used = set()
    while todo:
        item = todo.pop()
        item = (given.get((item[0], None), item)[0], item[1])
        item = given.get(item, item)
        item = item if item in found else holders.get(item)
        if item in found and item not in used:
            used.add(item)
            todo += names[modules[item[0]]].meant(item[0], found[item])
    kept = {name for names in KEPT.values() for name in names}
    idle = sorted((modules[module], str(name)) for module, name in found.keys() - used if str(name) not in kept)
    for path, name in idle:
        print(f"{path}: nothing uses {name}")
    print(f"unused: {len(found)} lemmas and definitions, {len(idle)} that nothing uses")
    return 1 if idle_functions() or idle else 0


sys.exit(main())
