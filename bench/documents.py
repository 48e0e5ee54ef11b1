#!/usr/bin/env python3
"""Judges what README.md, CHANGELOG.md and docs/*.md say of the tree, in seconds and without the prover. Each finding stands on a
line of its own, `file:line: what`; with any it ends with status 1.

    python3 bench/documents.py [PAGE ..]      PAGE is one of these files; all of them where none is told

names         what stands in backticks and looks like a name is there: of a crate, a function (also `Type::method`), a law, a
              definition, a wrong body, a file or a folder; so are commands of `station`, options, and clauses behind a function
quotations    a definition or a clause that stands in a block stands so, word for word, in a file that is named before it
links         a link leads to a file, and to a heading in it
numbers       what can be counted is as it is counted anew, by the tables of bench/counted.py
drawing       each crate of the map stands above those on which it stands
pages         those that bench/pages.py makes are as it would write them now, and each named wrong body has its edit

CHANGELOG.md tells what was: numbers aren't judged there.
"""
import argparse
import pathlib
import re
import sys

import counted
import pages as made_pages
import ways
from tree import OPTION, TOP, clauses_of_functions, commands, crates, ends_of_paths, names, options, text_of, wrong_bodies

# What stands in backticks, looks like a name, and is none of the tree's.
OTHER_NAMES = {
    "programs of others": ["cmp", "mergecap", "wireshark"],
    "items of the kit": ["thiserror::Error", "Threads", "Wait"],
    "a field of HTTP": ["Origin"],
    "functions of the C library": ["malloc", "memcpy", "memmove", "memset"],
    "keys of a keyboard": ["F2", "Shift"],
    "what bench/panel.py is asked for": ["storm"],
    "what is gone, and is told as gone": ["md4_speed", "station_sim"],
}
# What looks like a path, and leads to no file of the tree.
OTHER_PATHS = re.compile(
    r"""  (.*/)? (mine\.\w+ | run\.session | panel\.session | crossover\.svg)  # a reader's own
        | (.*/)? (both | [ab]) \.pcapng                                        # a reader's captures
        | (.*/)? out (/.*)?                                                    # what is built
        | /.*                                                                  # of the machine, or of a page
        | (.*/)? [A-Z]+ (/.* | \.edit)                                         # FUNCTION/: any of them
    """,
    re.VERBOSE,
)
# Options of programs of others: of `rt`, of `grep`, and of a linker.
OTHER_OPTIONS = {"--only", "--allow-holes", "--test", "--progress", "--data", "--include", "--seconds", "--whole-archive", "--no-whole-archive"}

BACKTICKED = re.compile(r"`([^`]+)`(\*(?!\*))?")
NAME = re.compile(r"[A-Za-z_]\w*(?:::\w+)*")
# what may stand behind a name: what it is called with, or of which types it is
CALLED = re.compile(r"\(.*\)$|<.*>$")
ENDINGS = "antt|c|edit|events|h|json|lua|md|pair|png|py|rt|script|session|sh|svg|toml|tsv|txt"
PATH = re.compile(rf"[\w.-]*(?:/[\w.-]*)+|[\w-]+\.(?:{ENDINGS})")
FULL_PATH = re.compile(r"(?<![\w./-])(?:bench|crates|docs|examples|wireshark)/[\w./-]*\w")
COMMAND = re.compile(r"(?:`|out/)station ([a-z]+)\b([^`#|]*)")
FIELD = re.compile(r"\b(?:rasta|sci)\.[a-z_.]+\b")
LISTED_NAMES = r"(?:`\w[\w:]*`(?:, | and )?)+"
# `File.antt` (`Name`, `Name`); `name`, `name` of `crate`; `function`: *clause*, *clause*; `crate` `edit`*, `edit`
IN_FILE = re.compile(rf"`([\w/]+\.(?:rt|antt)|[\w/]+/specs/\w+)` \(({LISTED_NAMES})\)")
OF_CRATE = re.compile(rf"({LISTED_NAMES}) of `(\w+)`")
HAS_CLAUSES = re.compile(r"`([\w:]+)`: (\*\w+\*(?:(?:, | and )\*\w+\*)*)")
EDITS_OF_CRATE = re.compile(r"`(\w+)` (`\w+`\*?(?:, `\w+`(?! `)\*?)*)")

# Parts of pages that are what a program reads or prints: how each begins, and the file in which it stands.
STORED = "crates/stored_runs/stdout"
COPIED = {
    "docs/INTERLOCKING.md": [("ok: 3 signals", STORED), ("table fault 6 FlankOpen", STORED)],
    "docs/PAIR.md": [("ok\naccepted\n", "crates/pair/stdout")],
}

DEFINITION = re.compile(r"(?m)^(?:pub )?(?:abbrev|record|unfoldable|fn)\b")
LINK = re.compile(r"\]\(([^()\s#]*)(?:#([^()\s]*))?\)")


class Page:
    """A document: its lines, and where its blocks begin and end."""

    def __init__(self, file):
        self.file, self.text = file, file.read_text(encoding="utf-8")
        self.name, self.lines = str(file.relative_to(TOP)), self.text.splitlines()
        fences = [at for at, line in enumerate(self.lines) if line.startswith("```")]
        self.blocks = list(zip(fences[::2], fences[1::2]))

    def numbered(self):
        return enumerate(self.lines, 1)

    def prose(self):
        """The lines outside blocks."""
        inside = {at for first, last in self.blocks for at in range(first, last + 1)}
        return [(number, line) for number, line in self.numbered() if number - 1 not in inside and not line.startswith("    ")]

    def quoted(self):
        """The parts of each block of definitions, which an empty line ends: the number of its first line, its text, and the prose
        since the heading before."""
        prose = dict(self.prose())
        for first, last in self.blocks:
            block = "\n".join(self.lines[first + 1 : last])
            if not DEFINITION.search(block):
                continue
            heading = max((number for number in prose if number <= first and prose[number].startswith("#")), default=0)
            before = "\n".join(line for number, line in prose.items() if heading <= number <= first)
            number = first + 2
            for part in block.split("\n\n"):
                yield number, part, before
                number += part.count("\n") + 2

    def line_of(self, at):
        """The number of the line of a place of the text."""
        return self.text.count("\n", 0, at) + 1


# ---- what is there


def is_file(path):
    return path.strip("/") in ends_of_paths() or OTHER_PATHS.fullmatch(path)


def is_name(name):
    return names().has(name) or any(name in it for it in (ends_of_paths(), *OTHER_NAMES.values()))


def files_at(path):
    """The files that may be told by a path, or by an end of one."""
    return [it for it in ends_of_paths().get(path, ()) if it.is_file()]


# ---- what is judged: each yields the number of a line, and what is off there


def check_names(page):
    edits = {it.name for it in wrong_bodies()}
    for number, line in page.prose():
        for text, star in BACKTICKED.findall(line):
            name = CALLED.sub("", text)
            if star and NAME.fullmatch(text) and text not in edits:
                yield number, f"there is no wrong body `{text}`"
            elif NAME.fullmatch(name) and not is_name(name):
                yield number, f"there is no `{text}`"
            elif PATH.fullmatch(text) and not is_file(text):
                yield number, f"there is no file or folder `{text}`"


def check_whereabouts(page):
    """Names that are told with the file or the crate that has them."""
    for number, line in page.prose():
        for path, told in IN_FILE.findall(line):
            texts = [text_of(it) for it in files_at(path)]
            for name in re.findall(r"`(\w+)", told) if texts else ():
                if not any(name in it for it in texts):
                    yield number, f"{path} has no `{name}`"
        for told, crate in OF_CRATE.findall(line):
            for name in re.findall(r"`(\w+)", told):
                if crate in names().within and name not in names().within[crate]:
                    yield number, f"`{crate}` has no `{name}`"


def check_clauses(page):
    for number, line in page.prose():
        for path, told in HAS_CLAUSES.findall(line):
            there = clauses_of_functions().get(path.split("::")[-1])
            for clause in re.findall(r"\*(\w+)\*", told):
                if there and clause not in there:
                    yield number, f"`{path}` has no clause {clause}"


def check_edits(page):
    """In a table, edits behind their crate: those that the gate leaves out have a star."""
    edits = {(it.crate, it.name): it.is_tried_by_gate for it in wrong_bodies()}
    crates = {crate for crate, _ in edits}
    for number, line in page.prose():
        for crate, told in EDITS_OF_CRATE.findall(line) if line.startswith("|") else ():
            for name, star in BACKTICKED.findall(told) if crate in crates else ():
                if (crate, name) not in edits:
                    yield number, f"`{crate}` has no wrong body `{name}`"
                elif edits[crate, name] == bool(star):
                    yield number, f"`{name}` of `{crate}` is {'' if star else 'not '}tried by the gate"


def check_commands(page):
    for number, line in page.numbered():
        for path in FULL_PATH.findall(line):
            if not is_file(path):
                yield number, f"there is no file or folder {path}"
        for option in OPTION.findall(line):
            if option not in options() | OTHER_OPTIONS:
                yield number, f"there is no option {option}"
        for command, rest in COMMAND.findall(line):
            if command not in commands():
                yield number, f"`station` has no command {command}"
            for option in set(OPTION.findall(rest)) - commands().get(command, set()) - {"--help"}:
                yield number, f"`station {command}` has no option {option}"


def check_fields(page):
    """Fields of the dissector, and its preferences."""
    dissector = text_of(TOP / "wireshark/zendurai.lua")
    for number, line in page.prose():
        for field in [field for text, _ in BACKTICKED.findall(line) for field in FIELD.findall(text)]:
            if f'"{field}"' not in dissector and f"prefs.{field.split('.')[1]}" not in dissector:
                yield number, f"the dissector has no {field}"


def stripped(text):
    """The lines of a text without the spaces round them."""
    return "\n" + "\n".join(line.strip() for line in text.splitlines()) + "\n"


def check_quotations(page):
    for number, part, before in page.quoted():
        files = [file for text, _ in BACKTICKED.findall(before) for file in files_at(text)]
        beside = [it for file in files for it in file.parent.glob("*.antt") if f"`{it.stem}`" in before]
        if not any(stripped(part) in stripped(text_of(it)) for it in files + beside):
            yield number, "this doesn't stand so in a file that is named before it"


def check_copies(page):
    """A part of a page, up to the end of its block or to an empty line, stands so in a file."""
    for begin, path in COPIED.get(page.name, ()):
        places = [it.start() + 1 for it in re.finditer(re.escape(f"\n{begin}"), page.text)]
        if not places:
            yield 1, f"bench/documents.py looks for what begins with {begin!r} here, and doesn't find it"
        for at in places:
            if re.split(r"\n```|\n\n", page.text[at:])[0] not in text_of(TOP / path):
                yield page.line_of(at), f"this doesn't stand so in {path}"


def anchors(page):
    """How the headings of a page are linked to."""
    heads = [line.lstrip("#").strip() for _, line in page.prose() if line.startswith("#")]
    return {re.sub(r"[^\w\- ]", "", it).lower().replace(" ", "-") for it in heads}


def check_links(page):
    for number, line in page.prose():
        for path, anchor in LINK.findall(line):
            file = page.file.parent / path if path else page.file
            if path.startswith("http"):
                continue
            if not file.exists():
                yield number, f"a link leads to {path}, which isn't there"
            elif anchor and anchor not in anchors(Page(file.resolve())):
                yield number, f"{path or page.name} has no heading for #{anchor}"


def check_numbers(page):
    for pattern, count in counted.TOLD.get(page.name, ()):
        told = list(re.finditer(pattern, page.text))
        if not told:
            yield 1, f"bench/counted.py looks for a number here, and doesn't find it: {pattern}"
        for it in told:
            if [counted.number_of(number) for number in it.groups()] != count():
                yield page.line_of(it.start(1)), f"{it[0]}: counted, it is {', '.join(map(str, count()))}"


def check_lists(page):
    for what, told, there in counted.LISTED.get(page.name, ()):
        for it in sorted(told() - there()):
            yield 1, f"{what} has `{it}`, which it shouldn't have"
        for it in sorted(there() - told()):
            yield 1, f"{what} lacks `{it}`"


def check_drawing(page):
    """In the map's drawing each crate stands above those on which it stands."""
    if page.name != "docs/MAP.md":
        return
    drawing = page.text.split("```")[1].splitlines()
    rows = {it: row for row, line in enumerate(drawing) for it in NAME.findall(line) if it in crates()}
    named = ways.read_crates(TOP / "crates.txt")
    for crate, lower in ((crate, it) for crate in rows for it in named[crate] if it in rows):
        if rows[lower] <= rows[crate]:
            yield page.text[: page.text.index("```")].count("\n") + 1 + rows[crate], f"`{crate}` stands on `{lower}`, which is drawn no lower"


OF_NOW = [check_edits, check_numbers, check_lists, check_drawing]
OF_ALL = [check_names, check_whereabouts, check_clauses, check_commands, check_fields]
OF_ALL += [check_quotations, check_copies, check_links]


def findings(page):
    """What is off in a page, in the order of its lines."""
    checks = OF_ALL if page.name == "CHANGELOG.md" else OF_ALL + OF_NOW
    return sorted({(page.name, number, what) for check in checks for number, what in check(page)})


def main():
    words = argparse.ArgumentParser(description=__doc__, formatter_class=argparse.RawDescriptionHelpFormatter)
    words.add_argument("pages", nargs="*", metavar="PAGE", type=pathlib.Path)
    asked = [it.resolve() for it in words.parse_args().pages]
    pages = asked or [TOP / "README.md", TOP / "CHANGELOG.md", *sorted(TOP.glob("docs/*.md"))]
    found = [it for page in pages for it in findings(Page(page))]
    if not asked:
        found += [(file.relative_to(TOP), line, what) for file, line, what in made_pages.faults()]
    for name, line, what in found:
        print(f"{name}:{line}: {what}")
    return 1 if found else 0


if __name__ == "__main__":
    sys.exit(main())
