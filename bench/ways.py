#!/usr/bin/env python3
"""Counts the ways through crates.txt. `rt` reads every file below a crate once for each way that leads from the crate
to the file's own crate, so the sum is a part of the gate's time and of a newcomer's first run.

    python3 bench/ways.py [CRATE ..]      with names: these crates alone, and which crates below each leads on the most ways
"""
import functools
import pathlib
import sys


def read_crates(path):
    """The libraries of the repository that each crate names. Those of the kit aren't read again for each way."""
    named = {}
    for line in path.read_text().splitlines():
        head, colon, libraries = line.partition("#")[0].partition(":")
        if colon:
            named[head.split()[0]] = libraries.split()
    return {crate: [it for it in libraries if it in named] for crate, libraries in named.items()}


def ways_of(below):
    """How often the files of each crate and of those below it are read, each crate counted as one."""

    @functools.lru_cache(None)
    def ways(crate):
        return 1 + sum(ways(it) for it in below[crate])

    return {crate: ways(crate) for crate in below}


def main(names):
    below = read_crates(pathlib.Path(__file__).resolve().parent.parent / "crates.txt")
    ways = ways_of(below)
    for crate in sorted(names or below, key=ways.get):
        print(f"{ways[crate]:9,} {crate}")
        if names:
            for it in sorted(below[crate], key=ways.get, reverse=True):
                print(f"          {ways[it]:9,} by {it}")
    print(f"{sum(ways.values()):9,} ways of {len(below)} crates together")


if __name__ == "__main__":
    main(sys.argv[1:])
