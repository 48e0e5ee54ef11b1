"""Makes docs/WRONG_BODIES.md: every wrong body of the tree, by layer and crate, with what it does wrong and the function that it
changes; and first those that the specification names, by bench/named_wrong_bodies.tsv. It is no command: bench/pages.py asks it."""
import csv

from tree import TOP, crates, wrong_bodies

NAMED = TOP / "bench" / "named_wrong_bodies.tsv"
PAGE = TOP / "docs" / "WRONG_BODIES.md"

HEAD = """# Wrong bodies

This page is written by `bench/pages.py`, by the files that it tells of.

A wrong body is a change of a crate's code that the proof has to refuse, at the function that it changes. It stands in a file of the crate, `must-fail/NAME.edit` or `by-hand/NAME.edit`; its name, here in words, says what the code does wrong with it. The gate tries those in `must-fail/`, {gate} of {all}. `python3 bench/wrong_bodies.py CRATE` tries the other {hand}.

## Those that the specification names
"""


def named():
    """What each named wrong body does wrong, with its crate and its edit."""
    with open(NAMED, newline="", encoding="utf-8") as file:
        return [tuple(it) for it in csv.reader(file, delimiter="\t")][1:]


def by_name():
    return {(it.crate, it.name): it for it in wrong_bodies()}


def tried_by(body):
    return "the gate" if body.is_tried_by_gate else "hand"


def table(head, rows):
    """A table of Markdown, with an empty line behind it."""
    return "".join(f"| {' | '.join(row)} |\n" for row in [head, ["---"] * len(head), *rows]) + "\n"


def named_rows(bodies):
    """The rows of the table of named ones, of those that have their edits."""
    for what, crate, edit in named():
        if (crate, edit) in bodies:
            yield what, f"`{crate}`", f"`{edit}`", tried_by(bodies[crate, edit])


def where(body):
    """The functions that it changes, with their files."""
    return "; ".join(f"`{'`, `'.join(names)}` in `{path.partition('/')[2]}`" for path, names in body.places().items())


def crate_rows(crate):
    """The rows of the table of a crate."""
    for body in wrong_bodies():
        if body.crate == crate:
            yield body.name.replace("_", " "), where(body), tried_by(body)


def page():
    """What the page has to say."""
    gate = sum(it.is_tried_by_gate for it in wrong_bodies())
    text = HEAD.format(gate=gate, all=len(wrong_bodies()), hand=len(wrong_bodies()) - gate) + "\n"
    text += table(["What it does wrong", "Crate", "Edit", "Tried by"], named_rows(by_name()))
    before = ""
    for crate, layer in crates().items():
        rows = list(crate_rows(crate))
        if rows:
            text += "" if layer == before else f"## {layer[0].upper()}{layer[1:]}\n\n"
            text += f"### `{crate}`\n\n" + table(["What it does wrong", "Where", "Tried by"], rows)
            before = layer
    return text.rstrip("\n") + "\n"


def faults():
    """An edit that can't be applied, and a named wrong body without an edit: of each its file, a line, and what it is."""
    for body in wrong_bodies():
        for fault in body.faults():
            yield body.file, 1, fault
    for number, (what, crate, edit) in enumerate(named(), 2):
        if (crate, edit) not in by_name():
            yield NAMED, number, f"{what}: there is no edit `{edit}` of `{crate}`"
