#!/usr/bin/env python3
"""Writes the page on which a station is drawn to standard output. A browser opens it by itself:

    python3 bench/draw_page.py > draw.html

With names of its parts, as `grid` or `table`, it writes these alone.
"""
import pathlib
import re
import sys

SOURCES = pathlib.Path(__file__).resolve().parent.parent / "crates" / "draw_desk" / "src"


def parts():
    """The names of the page's parts, in their order."""
    texts = re.findall(r"(\w+)!\(\[\]([^)]*)\)", (SOURCES / "document.rt").read_text())
    return [it for first, later in texts for it in [first, *later.split()[:-1]]]


def part(name):
    return re.search(r'r##"(.*)"##', (SOURCES / "document" / f"{name}.rt").read_text(), re.DOTALL)[1]


def page(names=()):
    return "".join(part(name) for name in names or parts())


if __name__ == "__main__":
    sys.stdout.write(page(sys.argv[1:]))
