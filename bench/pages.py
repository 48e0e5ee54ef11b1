#!/usr/bin/env python3
"""Writes the pages that are made of the tree: docs/BELIEVE.md, docs/CRATES.md, docs/LAWS.md, docs/TABLES.md and
docs/WRONG_BODIES.md.

    python3 bench/pages.py            writes them
    python3 bench/pages.py --check    tells, each on a line, what keeps a page from being made whole, and which page is another; it
                                      ends with status 1 if there is any of these
"""
import argparse
import sys

import believe_page
import crates_page
import laws_page
import tables_page
import wrong_bodies_page
from tree import TOP

PAGES = [believe_page, crates_page, laws_page, tables_page, wrong_bodies_page]


def faults():
    """What is off: of each its file, a line, and what it is."""
    for made in PAGES:
        yield from made.faults()
        if not made.PAGE.is_file() or made.PAGE.read_text(encoding="utf-8") != made.page():
            yield made.PAGE, 1, "it isn't what `python3 bench/pages.py` would write"


def main():
    words = argparse.ArgumentParser(description=__doc__, formatter_class=argparse.RawDescriptionHelpFormatter)
    words.add_argument("--check", action="store_true")
    if not words.parse_args().check:
        for made in PAGES:
            made.PAGE.write_text(made.page(), encoding="utf-8")
        return 0
    found = list(faults())
    for file, line, what in found:
        print(f"{file.relative_to(TOP)}:{line}: {what}")
    return 1 if found else 0


if __name__ == "__main__":
    sys.exit(main())
