"""Makes docs/BELIEVE.md: for each clause of the promise the definitions that one has to believe, where they stand, in the order in
which one comes to them. It is no command: bench/pages.py asks it."""
import collections

from definitions import clauses_in, names_in, needed
from tree import TOP

PAGE = TOP / "docs" / "BELIEVE.md"

HEAD = """# What has to be believed

This page is written by `bench/pages.py`, by the files that it names.

A contract is proved. What it says has to be read: its clauses, and the definitions that these name. This page lists them, for the promise of a station in one process and for that of nodes as processes. Under each clause stand the definitions that the clauses before it don't need, each with its line, files in the order in which one comes to them, from the clause on. No proof need be read. What stands in no list here is believed of nobody. Paths are below `crates/`. Words of the standard library (`List`, `Option`, sums) aren't listed.
"""

WORLD = "crates/simulator/src/world.rt"
NODE = "crates/station_node/src/process.rt"
ORDER = "crates/node_safety/src/orders.rt"

# The parts of the page: a heading, what is said under it, and its clauses: a file, a function, and the names of clauses.
PARTS = [
    (
        "A station",
        "The contracts of `World`, in `simulator/src/world.rt`. *safe* is the promise. *allowed* and *refused* say which events happen, "
        "*run* how a station begins, *step* and *reply* what an event does. *links* and *reached* say more than the promise needs.",
        [
            (WORLD, "apply", ["safe", "allowed", "refused"]),
            (WORLD, "at", ["run"]),
            (WORLD, "apply", ["step", "reply"]),
            (WORLD, "run", ["run"]),
            (WORLD, "apply", ["links", "reached"]),
        ],
    ),
    (
        "Nodes as processes",
        "What a process does, and where that is safe, also beside nodes in programs of others. *done* says what a process called that ran to its end, *stopped* what one called "
        "that ended early.",
        [(NODE, "run_node", ["done", "stopped"]), (ORDER, "what_processes_and_programs_did_is_safe", [""])],
    ),
]


def places(found):
    """Rows of a table: a file, and the names that it has, each with its line."""
    files = collections.defaultdict(list)
    for it in found:
        files[it.file].append(it)
    for file, inside in files.items():
        path = str(file.relative_to(TOP / "crates")).removesuffix(".antt")
        names = ", ".join(f"`{it.name}` {it.line}" for it in sorted(inside, key=lambda it: it.line))
        yield f"| `{path}` | {names} |\n"


def counted(found):
    definitions = [it for it in found if it.lines]
    lines, files = sum(it.lines for it in definitions), len({it.file for it in definitions})
    types = len(found) - len(definitions)
    return f"{len(definitions)} definitions of {lines} lines, in {files} files, and {types} types of the code"


def section(path, function, clause, known):
    """The text of a clause, and all that is needed up to it."""
    facts = [it.fact for it in clauses_in(path, function) if it.kind == "ensures" and it.name == clause]
    found = needed([name for fact in facts for name in names_in(path, fact)])
    new = [it for it in found if it not in known]
    told = f"### `{function}`" + (f": *{clause}*" if clause else "") + f"\n\nIt needs {counted(found)}"
    if len(new) < len(found):
        told += f". Of these {counted(new)} stand in no list above" if new else ". All stand above"
    text = f"{told}.\n\n"
    if new:
        text += "| File | Definitions, and types of the code |\n| --- | --- |\n" + "".join(places(new)) + "\n"
    return text, known | set(found)


def page():
    """What the page has to say."""
    text, known = HEAD + "\n", set()
    for heading, said, clauses in PARTS:
        text += f"## {heading}\n\n{said}\n\n"
        for path, function, names in clauses:
            for name in names:
                added, known = section(path, function, name, known)
                text += added
    return text.rstrip("\n") + "\n"


def faults():
    """Nothing but the page can be off."""
    return ()
