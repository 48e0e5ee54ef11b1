"""What stands in the repository: its crates, the names of its code and definitions, and its wrong bodies. It is no command: scripts
beside it read what documents say, and ask it what is so."""
import collections
import functools
import os
import pathlib
import re

import contracts

TOP = pathlib.Path(__file__).resolve().parent.parent

WORD = re.compile(r"[A-Za-z_]\w*")
# what is no name of code or of a definition: comments, and texts
NO_CODE = re.compile(r'//[^\n]*|"(?:\\.|[^"\\])*"')
NO_DEFINITION = re.compile(r"--[^\n]*")
OPTION = re.compile(r"(?<![\w-])--[a-z][a-z-]*")
# a definition of `proofs/` that other files may name
PROOF_NAME = re.compile(r"(?m)^(?:(?:abbrev|record|unfoldable) )?pub (\w+)")

# the first line of a function, of a block that holds functions or values, and of what stands in none
VISIBLE = r"( *)(?:pub(?:\([^)]*\))? )?"
FUNCTION = re.compile(VISIBLE + r'(?:const )?(?:unsafe )?(?:extern "C" )?fn (\w+)')
HOLDER = re.compile(VISIBLE + r"(?:unsafe )?(impl|struct|enum|trait|mod)\b(.*)")
ITEM = re.compile(VISIBLE + r"(?:const|static|struct|enum|type) (\w+)")


@functools.lru_cache(None)
def text_of(file):
    return file.read_text(encoding="utf-8")


@functools.lru_cache(None)
def crates():
    """The layer of each crate, in the order of crates.txt."""
    layer, found = "", {}
    for line in text_of(TOP / "crates.txt").splitlines():
        if line.startswith("# ") and ":" not in line:
            layer = line[2:]
        elif line and not line.startswith("#"):
            found[line.split(":")[0].split()[0]] = layer
    return found


def sources(crate="*", parts=("src", "specs")):
    """The files of code and definitions of a crate, or of all."""
    return sorted(file for part in parts for file in TOP.glob(f"crates/{crate}/{part}/**/*.*"))


def crate_of(file):
    return file.relative_to(TOP / "crates").parts[0]


@functools.lru_cache(None)
def words_of(file):
    """The names in a file of code or definitions."""
    return set(WORD.findall((NO_CODE if file.suffix == ".rt" else NO_DEFINITION).sub(" ", text_of(file))))


def holder_names(head):
    """By which names a block goes that begins so, behind `impl` or the like: those of a type, and of the trait that it is."""
    bare = re.sub(r"<[^<>]*>", "", re.sub(r"<[^<>]*>", "", head))
    paths = re.findall(r"[\w:]+", re.split(r"[{(]| where ", bare)[0])
    return [it.split("::")[-1] for it in paths if it != "for"]


def members_of(text):
    """What stands in the blocks of a file, by the names of each block: functions, and of types all words. A block ends as far in
    as it begins, as `rt fmt` lays it out."""
    found, inside = collections.defaultdict(set), []
    for line in NO_CODE.sub(" ", text).splitlines():
        holder, function = HOLDER.match(line), FUNCTION.match(line)
        if holder:
            inside.append((holder[1] + "}", holder[2], holder_names(holder[3])))
        for _, kind, names in inside:
            words = [function[2]] if function else [] if kind in ("impl", "trait") else WORD.findall(line)
            for name in names:
                found[name].update(words)
        if inside and (line.startswith(inside[-1][0]) or holder and line.rstrip().endswith((";", "}"))):
            inside.pop()
    return found


class Names:
    """The names of code, also in C, and of definitions: all of them, and those within a crate, a module, a type or a trait."""

    def __init__(self):
        self.all, self.within = set(crates()), collections.defaultdict(set)
        for file in sources():
            self.all |= words_of(file)
            self.within[crate_of(file)] |= words_of(file)
            if file.suffix == ".rt":
                self.within[file.stem] |= words_of(file)
                for holder, members in members_of(text_of(file)).items():
                    self.within[holder] |= members
        for file in (*TOP.glob("crates/*/*.h"), *TOP.glob("examples/embedded/*.c")):
            self.all.update(WORD.findall(text_of(file)))
        for file in sources(parts=["proofs"]):
            self.all.add(file.stem)
            self.all.update(PROOF_NAME.findall(text_of(file)))

    def has(self, path):
        """Whether there is what a path such as `Type::method` names: each part stands within the one before."""
        parts = path.split("::")
        return parts[0] in self.all and all(inner in self.within[outer] for outer, inner in zip(parts, parts[1:]))


@functools.lru_cache(None)
def names():
    return Names()


@functools.lru_cache(None)
def clauses_of_functions():
    """The names of the clauses of functions, by the name of the function; several may have it."""
    found = collections.defaultdict(set)
    for file in sources(parts=["src"]):
        text = contracts.COMMENT.sub("", text_of(file))
        for function in re.finditer(f"(?m)^{FUNCTION.pattern}", text):
            found[function[2]].update(name for _, name, _ in contracts.clauses(text, function.end()))
    return found


@functools.lru_cache(None)
def ends_of_paths():
    """The files and folders by how they may be told: by the last parts of their paths, also without what tells their kind."""
    found = collections.defaultdict(list)
    for folder, folders, files in os.walk(TOP):
        folders[:] = [it for it in folders if it not in (".git", "out", "__pycache__")]
        for path in (pathlib.Path(folder, it) for it in folders + files):
            parts = path.relative_to(TOP).parts
            for first in range(len(parts)):
                end = "/".join(parts[first:])
                for told in {end, re.sub(r"\.(antt|rt|edit|events|pair)$", "", end)}:
                    found[told].append(path)
    return found


@functools.lru_cache(None)
def commands():
    """The commands of `station`, each with its options."""
    table = text_of(TOP / "crates/station_command/src/command_table.rt")
    words = {name: word for name, word in re.findall(r'const (\w+): &str = "([a-z-]+)";', table)}
    found = {}
    for command, arguments in re.findall(r"(?s)word: (\w+),(.*?)\n    },", table):
        options = re.findall(r"Argument\(\s*(\w+),\s*Kind::(?:Word|Number|Switch)", arguments)
        found[words[command]] = {f"--{words[it]}" for it in options}
    return found


@functools.lru_cache(None)
def options():
    """The options of `station` and of the scripts."""
    scripts = {it for file in TOP.glob("bench/*.*") for it in OPTION.findall(text_of(file))}
    return scripts.union({"--help", "--version"}, *commands().values())


class WrongBody:
    """An edit: its crate and name, whether the gate tries it, the file that it changes, and its pairs of an old and a new text."""

    def __init__(self, file):
        self.file, self.crate, self.name = file, crate_of(file), file.stem
        self.is_tried_by_gate = file.parent.name == "must-fail"
        self.pairs, old, path = [], "", ""
        for line in text_of(file).splitlines():
            word, _, rest = line.partition(": ")
            if word == "file":
                path = rest.strip()
            elif word == "old":
                old = rest
            elif line.startswith("new:"):
                self.pairs.append((path, old, rest))

    def steps(self):
        """Its pairs, one after the other: the file of each, its text before and after, and the old text."""
        texts = {}
        for path, old, new in self.pairs:
            file = TOP / "crates" / self.crate / path
            before = texts.get(path) or (text_of(file) if file.is_file() else "")
            texts[path] = before.replace(old, new)
            yield path, before, texts[path], old

    def faults(self):
        """What keeps it from being applied."""
        for path, before, _, old in self.steps():
            if before.count(old) != 1:
                yield f"`{old.strip()}` stands {before.count(old)} times in {path}, and not once"
        if not self.pairs:
            yield "it has no pair of an old and a new text"

    def places(self):
        """The functions that it changes, by their files, in the order of the text. A pair changes one line into one."""
        found = {}
        for path, after in {path: after for path, before, after, _ in self.steps() if before}.items():
            lines = text_of(TOP / "crates" / self.crate / path).split("\n")
            changed = [at for at, (old, new) in enumerate(zip(lines, after.split("\n"))) if old != new]
            found[path] = list(dict.fromkeys(place_of(lines, at) for at in changed))
        return found


def place_of(lines, at):
    """The function that has a line of a file, as `Type::function` where it has a type; or else the constant or the type there."""
    depth, name = len(lines[at]) - len(lines[at].lstrip()), ""
    for line in reversed(lines[: at + 1]):
        head, holder = FUNCTION.match(line) or ITEM.match(line), HOLDER.match(line)
        if head and not name and len(head[1]) <= depth:
            depth, name = len(head[1]), head[2]
        elif name and holder and holder[2] in ("impl", "trait") and len(holder[1]) < depth:
            return f"{holder_names(holder[3])[-1]}::{name}"
    return name


@functools.lru_cache(None)
def wrong_bodies():
    """Those of the tree, in the order of the crates and of their names."""
    order = list(crates())
    files = [file for folder in ("must-fail", "by-hand") for file in TOP.glob(f"crates/*/{folder}/*.edit")]
    return sorted(map(WrongBody, files), key=lambda it: (order.index(it.crate), it.name))
