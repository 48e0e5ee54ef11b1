#!/usr/bin/env python3
"""Lists what every function promises: a line for each clause, with its function and, of laws and public functions, a star.
Two lists, of a tree before and after a change that only moves and renames, are to differ in names alone.

    python3 bench/contracts.py [TREE]      TREE is a checkout, this one where none is told
"""
import pathlib
import re
import sys

FUNCTION = re.compile(r"^\s*(pub(?:\(crate\))? )?(?:const )?fn (\w+)", re.M)
CLAUSE = re.compile(r"\b(requires|ensures)\*?\s*(\w*)\s*\*?\s*\{")
COMMENT = re.compile(r"^\s*//.*$", re.M)


def end_of(text, at):
    """Behind the bracket that closes the one before this place."""
    depth = 1
    while depth:
        depth += {"{": 1, "}": -1}.get(text[at], 0)
        at += 1
    return at


def clauses(text, at):
    """The clauses of the function whose head begins here: they stand before the bracket of its body."""
    while True:
        clause, body = CLAUSE.search(text, at), text.find("{", at)
        if not clause or clause.end() - 1 != body:
            return
        at = end_of(text, clause.end())
        yield clause[1], clause[2], " ".join(text[clause.end() : at - 1].split())


def listed(tree):
    for file in sorted((tree / "crates").glob("*/src/**/*.rt")):
        text = COMMENT.sub("", file.read_text())
        for function in FUNCTION.finditer(text):
            star = "*" if function[1] == "pub " else " "
            for kind, name, fact in clauses(text, function.end()):
                yield f"{star} {file.relative_to(tree / 'crates').parts[0]} {function[2]} {kind} {name}: {fact}"


if __name__ == "__main__":
    here = pathlib.Path(__file__).resolve().parent.parent
    print(*listed(pathlib.Path(sys.argv[1]) if len(sys.argv) > 1 else here), sep="\n")
