"""The definitions of `specs/`: what each file names, where it stands, and what a contract rests on. It is no command: scripts beside
it ask it."""
import collections
import functools
import re

import contracts
from tree import TOP, crates, text_of

PASSED_ON = re.compile(r"(?m)^pub use Rattle\.([\w.]+)(?: as (\w+))?$")
IMPORT = re.compile(r"use Rattle\.([\w.]+?)(?:\.\{(.*)\}| as (\w+))?;?$")
HEAD = re.compile(r"( *)(?:pub )?(?:abbrev |unfoldable |opaque )?(?:pub )?(record |data )?([^\s:({]+)(?: |$)")
DEFINES = re.compile(r" *(?:pub )?(?:abbrev|unfoldable|opaque|record|data)\b")
MODULE = re.compile(r"( *)module \S+ (.*)where$")
CASE = re.compile(r" +(?:pub )?(\w[\w-]*) : ")
TOKEN = re.compile(r"(?<![\w.])\w[\w-]*(?:\.\w[\w-]*)*")
# what a definition binds by itself: parameters, fields, and what its cases and λs take
BOUND = re.compile(r"[({]((?:[\w-]+ )+):|λ ([\w -]+)\.|(?:^|[{;]) *(?:pub )?([\w-]+)(?= [:=] )|^ *[\w-]+ ([^=:\n]*) =", re.M)
# a type of the code, as definitions name it
DECLARED = "declared"

Name = collections.namedtuple("Name", "crate path name")
Definition = collections.namedtuple("Definition", "file line lines name words")


@functools.lru_cache(None)
def passed_on(crate):
    """What a crate passes on of others, by the name under which it does."""
    found = {}
    for path, other in PASSED_ON.findall(text_of(TOP / f"crates/{crate}/specs/Lib.antt")) if crate in with_definitions() else ():
        found[other or path.split(".")[-1]] = path
    return found


@functools.lru_cache(None)
def with_definitions():
    return {file.parts[-3] for file in TOP.glob("crates/*/specs/Lib.antt")}


def home_of(path):
    """The crate that has what a path leads to, and the path in it; none for what isn't of the tree."""
    parts = path.split(".")
    while parts[0] in crates() and parts[1:2] == ["specs"] and parts[2:3]:
        further = passed_on(parts[0]).get(parts[2])
        if not further:
            return parts[0], tuple(parts[2:])
        parts = further.split(".") + parts[3:]
    return None


class Imports:
    """What a file names of others: names by themselves, and modules."""

    def __init__(self, lines):
        self.names, self.modules = {}, {}
        for line in lines:
            use = IMPORT.match(line.strip().removeprefix("ghost ").removeprefix("pub "))
            if not use:
                continue
            path, listed, other = use.groups()
            if listed is None:
                self.modules[other or path.split(".")[-1]] = path
            for item in (listed or "").split(","):
                name, _, given = item.strip().partition(" as ")
                self.names[given or name] = (path, name)

    def of(self, word):
        """Which definition a word names that was imported; none for those of the kit."""
        first, _, rest = word.partition(".")
        path, name = self.names.get(first, (None, None))
        if not path and rest and first in self.modules:
            path, name = self.modules[first], rest.split(".")[0]
        home = home_of(path) if path else None
        return Name(*home, name) if home else None


def bound_in(text):
    """The names that a definition binds: what it calls so is nothing of others."""
    return {word for it in BOUND.findall(text) for words in it for word in re.findall(r"[a-z][\w-]*", words)}


class File:
    """A file of definitions."""

    def __init__(self, crate, path):
        self.file = TOP / f"crates/{crate}/specs/{'/'.join(path)}.antt"
        self.crate, self.path, self.lines = crate, path, text_of(self.file).split("\n")
        self.imports = Imports(self.lines)
        self.found = {}
        self.read()

    def read(self):
        """Reads its definitions: each goes on up to the next head or empty line, and has the comment in front of it."""
        inside = {}
        first = None
        for at, line in enumerate([*self.lines, ""]):
            module, bare = MODULE.match(line), line.strip()
            if module:
                inside = {len(module[1]) + 2: module[2]}
            elif bare and not line.startswith(" ") and not bare.startswith("--"):
                inside = {}
            is_head = bool(DEFINES.match(line)) and "use Rattle" not in line
            if first is not None and (not bare or is_head or module):
                self.add(first, at, inside)
                first = None
            if is_head:
                first = at

    def add(self, first, end, inside):
        head, begin = HEAD.match(self.lines[first]), first
        while begin and self.lines[begin - 1].strip().startswith("--") and "-- ----" not in self.lines[begin - 1]:
            begin -= 1
        text = "\n".join(line for line in self.lines[first:end] if not line.strip().startswith("--"))
        indent = len(head[1])
        around = " ".join(head for within, head in inside.items() if within <= indent)
        text, bound = f"{text}\n{around}", bound_in(f"{text}\n{around}")
        words = frozenset(word for word in TOKEN.findall(text) if word.split(".")[0] not in bound)
        made = Definition(self.file, first + 1, end - begin, head[3], words)
        self.found[head[3]] = made
        if head[2] == "data ":
            for line in self.lines[first + 1 : end]:
                case = CASE.match(line)
                if case:
                    self.found.setdefault(case[1], made)

    def named(self, word):
        """What a word names here: a definition of the file, or an imported one."""
        for told in (word, word.split(".")[0]):
            if told in self.found:
                return Name(self.crate, self.path, told)
        return self.imports.of(word)


@functools.lru_cache(None)
def file_of(crate, path):
    """A file of definitions, where there is one."""
    file = TOP / f"crates/{crate}/specs/{'/'.join(path)}.antt"
    return File(crate, path) if file.is_file() else None


@functools.lru_cache(None)
def type_of(crate, path, name):
    """The place of a type or a constant of the code that definitions name by a path under `declared`."""
    parts = [it for it in path if it != DECLARED]
    for kind in ("enum", "struct", "const"):
        for wanted in dict.fromkeys([*parts[::-1], name]):
            for file in sorted(TOP.glob(f"crates/{crate}/src/**/*.rt")):
                head = re.search(rf"(?m)^(?:pub(?:\(\w+\))? )?{kind} {wanted}\b", text_of(file))
                if head:
                    line = text_of(file).count("\n", 0, head.start()) + 1
                    return Definition(file, line, 0, wanted, frozenset())
    return None


def needed(starts):
    """The definitions that these names need, and types of the code, in the order in which they are come to."""
    found, seen = {}, set()
    waiting = collections.deque(starts)
    while waiting:
        name = waiting.popleft()
        if name in seen:
            continue
        seen.add(name)
        file = None if DECLARED in name.path else file_of(name.crate, name.path)
        made = file.found.get(name.name) if file else type_of(*name)
        if made is None and file:
            made_elsewhere = file.imports.of(name.name)
            waiting.extend([made_elsewhere] if made_elsewhere else [])
        if made is None or made in found:
            continue
        found[made] = name
        waiting.extend(it for it in map(file.named, sorted(made.words)) if it) if file else None
    return list(found)


Clause = collections.namedtuple("Clause", "kind name fact")


def clauses_in(path, function):
    """The clauses of a function of a file, and the names that they speak of."""
    text = contracts.COMMENT.sub("", text_of(TOP / path))
    head = next(it for it in contracts.FUNCTION.finditer(text) if it[2] == function)
    return [Clause(*it) for it in contracts.clauses(text, head.end())]


def names_in(path, fact):
    """The definitions that a clause of a file names."""
    imports = Imports([it for it in text_of(TOP / path).split("\n") if "ghost use" in it])
    return [it for it in map(imports.of, dict.fromkeys(TOKEN.findall(fact))) if it]
