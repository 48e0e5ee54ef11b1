"""Makes docs/TABLES.md: the control tables of the stations of examples/, as `station table` prints them in a stored run. It is no
command: bench/pages.py asks it."""
import re

from tree import TOP, text_of

PAGE = TOP / "docs" / "TABLES.md"
STORED = TOP / "crates/stored_runs/stdout"

HEAD = """# Control tables

This page is written by `bench/pages.py`, by what the program `stored_runs` prints in the gate. It has what `station table` prints of the layouts of `examples/`: a route a line, with what it needs and why it conflicts with others ([INTERLOCKING](INTERLOCKING.md) has each column).
"""
TABLE = re.compile(r"(?m)^table (\w+)\.toml\n((?:\|[^\n]*\n)+)")


def tables():
    """The tables that were printed, by the names of their layouts."""
    return {name: table for name, table in TABLE.findall(text_of(STORED)) if (TOP / f"examples/{name}.toml").is_file()}


def page():
    """What the page has to say."""
    return HEAD + "".join(f"\n## {name[0].upper()}{name[1:]}\n\n{table}" for name, table in tables().items())


def faults():
    """A layout of a page that has no table."""
    for name in ("halden", "neustadt"):
        if name not in tables():
            yield STORED, 1, f"there is no table of {name}.toml"
