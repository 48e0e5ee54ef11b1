"""Makes docs/CRATES.md: every crate by its layer, with what it is, what it stands on, and its size. It is no command:
bench/pages.py asks it."""
import re

import ways
from tree import TOP, crates, sources, text_of

PAGE = TOP / "docs" / "CRATES.md"

HEAD = """# Crates

This page is written by `bench/pages.py`, by `crates.txt` and the first words of each crate.

Each crate stands on crates of earlier rows alone. What it stands on is bold where it passes that on as a whole. *Code*, *definitions* and *proof* are the lines of its `src/`, `specs/` and `proofs/`. [MAP](MAP.md) has the drawing, doors and ways.
"""
PASSED_ON = re.compile(r"^pub use (\w+);", re.M)


def first_words(crate):
    """What the crate says of itself: the first paragraph of the comment with which its code begins."""
    for name in ("lib.rt", "main.rt"):
        file = TOP / f"crates/{crate}/src/{name}"
        if file.is_file():
            words = re.match(r"(?://!? [^\n]*\n)+", text_of(file))
            return " ".join(" ".join(line.lstrip("/!") for line in words[0].splitlines()).split()) if words else ""
    return ""


def lines(crate, part):
    return sum(len(text_of(file).splitlines()) for file in sources(crate, [part]))


def passed_on(crate):
    """The crates that a door passes on as a whole."""
    file = TOP / f"crates/{crate}/src/lib.rt"
    return PASSED_ON.findall(text_of(file)) if file.is_file() else []


def row(crate, below):
    whole = passed_on(crate)
    own = ", ".join(f"**`{it}`**" if it in whole else f"`{it}`" for it in below)
    sizes = " | ".join(f"{lines(crate, part):,}" if lines(crate, part) else "" for part in ("src", "specs", "proofs"))
    return f"| `{crate}` | {first_words(crate)} | {own} | {sizes} |\n"


def page():
    """What the page has to say."""
    text, before = HEAD, ""
    named = ways.read_crates(TOP / "crates.txt")
    for crate, layer in crates().items():
        if layer != before:
            text += f"\n## {layer[0].upper()}{layer[1:]}\n\n| Crate | What it is | Stands on | Code | Definitions | Proof |\n| --- | --- | --- | --- | --- | --- |\n"
            before = layer
        text += row(crate, named[crate])
    return text


def faults():
    """A crate that says nothing of itself."""
    for crate in crates():
        if not first_words(crate):
            yield TOP / f"crates/{crate}/src", 1, "it doesn't begin with what the crate is"
