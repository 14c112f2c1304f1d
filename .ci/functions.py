"""Which public functions of the libraries the program doesn't reach: those that only case programs call, and those that nothing calls.

The program reaches what its `main` names, and what is named by what it reaches; a method besides only where its type is named by something that
is reached. A function that gives nothing and changes nothing is a law, and reached. Names are compared, not types, so a function whose name
another one has may be missed; what is told isn't reached.
"""

import collections
import glob
import re

FUNCTION = re.compile(r"^(\s*)(pub(?:\(\w+\))? )?(?:const )?(?:unsafe )?fn (\w+)")
HOLDER = re.compile(r"^\s*(?:unsafe )?(?:pub )?(impl|trait)\b(.*)")
TYPE = re.compile(r"^\s*(?:pub(?:\(\w+\))? )?(?:struct|enum|type) (\w+)")
CLAUSE = re.compile(r"\s*(requires|ensures)\b")
WORD = re.compile(r"\b[A-Za-z_]\w*\b")


class Function:
    """A function: where it stands, its head without its clauses, and its body."""

    def __init__(self, crate, path, line, name, is_pub, holder, head, body):
        self.crate, self.path, self.line, self.name, self.is_pub = crate, path, line, name, is_pub
        self.type, self.is_of_trait = holder
        self.head, self.body = head, body

    def is_law(self):
        return "->" not in self.head and "&mut" not in self.head and self.type is None

    def whole_name(self):
        return f"{self.crate}::" + (f"{self.type}::" if self.type else "") + self.name


def is_of_cases(crate):
    return crate.endswith("_cases")


def without_texts(text):
    """A file without its comments and the contents of its literals."""
    return re.sub(r'"(?:[^"\\]|\\.)*"', '""', re.sub(r"//.*", "", text))


def indent_of(line):
    return len(line) - len(line.lstrip())


def item(lines, at):
    """The lines of an item, from its first one on, as `rt fmt` lays them out."""
    indent = indent_of(lines[at])
    for end in range(at, len(lines)):
        line = lines[end].rstrip()
        if end > at and line and indent_of(line) < indent:
            return lines[at:end]
        if line and indent_of(line) == indent and (line.strip() in ("}", "};") or line.endswith(";") or (end == at and line.endswith("}"))):
            return lines[at : end + 1]
    return lines[at:]


def holder_of(kind, rest):
    """The type of an impl, or the trait, and whether the functions inside are a trait's."""
    if kind == "trait":
        return WORD.search(rest)[0], True
    head = re.sub(r"^<.*?>(?= )", "", rest).split("{")[0].split(" where ")[0]
    of_trait = " for " in head
    named = re.search(r"(?:\w+::)*(\w+)", head.split(" for ")[-1].replace("&", " ").replace(" mut ", " "))
    return (named[1] if named else None), of_trait


def cut(text):
    """The head of a function without its clauses, and its body."""
    indent = " " * indent_of(text[0])
    head = next((number for number, line in enumerate(text) if number and (CLAUSE.match(line) or line == indent + "{")), len(text))
    if text[0].rstrip().endswith("{"):
        head = 1
    body = text.index(indent + "{") if indent + "{" in text else head
    return "\n".join(text[:head]), "\n".join(text[body:])


def read(path, functions, types):
    """Adds the functions and the types of a file."""
    crate = path.split("/")[1]
    with open(path, encoding="utf-8") as file:
        lines = without_texts(file.read()).split("\n")
    holders = []
    for number, line in enumerate(lines):
        while holders and line.strip() and indent_of(line) <= holders[-1][0]:
            holders.pop()
        held = HOLDER.match(line)
        if held:
            holders.append((indent_of(line), holder_of(held[1], held[2])))
        named = TYPE.match(line)
        if named:
            types[crate, named[1]] += "\n".join(item(lines, number))
        found = FUNCTION.match(line)
        if found:
            holder = holders[-1][1] if holders else (None, False)
            functions.append(Function(crate, path, number + 1, found[3], found[2] == "pub ", holder, *cut(item(lines, number))))


def below(crates_file):
    """The crates that each crate of crates.txt stands on, itself among them."""
    uses, found = {}, {}
    with open(crates_file, encoding="utf-8") as file:
        for line in file:
            name, colon, rest = line.partition("#")[0].partition(":")
            if colon:
                uses[name.split()[0]] = rest.split()

    def reach(crate):
        if crate not in found:
            found[crate] = {crate}.union(*(reach(it) for it in uses[crate] if it in uses))
        return found[crate]

    for crate in uses:
        reach(crate)
    return found


class Reach:
    """What the program reaches of the functions and types."""

    def __init__(self, functions, types):
        self.functions, self.types, self.below = functions, types, below("crates.txt")
        self.named, self.reached, self.reached_types = set(), set(), set()
        self.by_name, self.types_by_name = collections.defaultdict(list), collections.defaultdict(list)
        for function in functions:
            self.by_name[function.name].append(function)
        for crate, name in types:
            self.types_by_name[name].append((crate, name))

    def see(self, crate, text):
        """Takes in what a text of a crate names."""
        todo = [(crate, text)]
        while todo:
            crate, text = todo.pop()
            for word in set(WORD.findall(text)):
                self.named.update(it for it in self.by_name[word] if it.crate in self.below[crate] and (it.crate == crate or it.is_pub))
                for key in self.types_by_name[word]:
                    if key[0] in self.below[crate] and key not in self.reached_types:
                        self.reached_types.add(key)
                        todo.append((key[0], self.types[key]))

    def is_reached(self, function):
        own = (function.crate, function.type)
        if own in self.types and own not in self.reached_types:
            return False
        return function in self.named or function.is_of_trait

    def run(self):
        """Goes from the program and the laws to all that they reach."""
        product = [it for it in self.functions if not is_of_cases(it.crate)]
        self.named.update(it for it in product if (it.name == "main" and it.type is None) or (it.is_pub and it.is_law()))
        fresh = product
        while fresh:
            fresh = [it for it in product if it not in self.reached and self.is_reached(it)]
            self.reached.update(fresh)
            for function in fresh:
                self.see(function.crate, function.head + function.body)


def unreached():
    """The public functions that the program doesn't reach, each with whether a case program names it; and how many public ones there are."""
    functions, types = [], collections.defaultdict(str)
    for path in sorted(glob.glob("crates/*/src/**/*.rt", recursive=True)):
        read(path, functions, types)
    reach = Reach(functions, types)
    reach.run()
    public = [it for it in functions if it.is_pub and not it.is_of_trait and not is_of_cases(it.crate)]
    by_cases = {word for it in functions if is_of_cases(it.crate) for word in WORD.findall(it.head + it.body)}
    return [(it, it.name in by_cases) for it in public if it not in reach.reached], len(public)
