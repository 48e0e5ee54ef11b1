"""What documents count, and what is counted anew: numbers, numbers of lines, and lists that are to be whole. It is no command:
bench/documents.py asks it."""
import csv
import functools
import re

import ways
from tree import TOP, crates, text_of, wrong_bodies

COST, MAP, PROMISE = "docs/COST.md", "docs/MAP.md", "docs/PROMISE.md"
RECOVERY, TESTED, WHY = "docs/RECOVERY.md", "docs/TESTED.md", "docs/WHY.md"
HALDEN, NEUSTADT = "examples/halden.toml", "examples/neustadt.toml"
# what `station check` counts of a layout
SIZED = ("signal", "point", "section", "route")

NUMBERS = """no one two three four five six seven eight nine ten eleven twelve thirteen fourteen fifteen sixteen seventeen eighteen
nineteen twenty""".split()


def number_of(text):
    """A number as it is written: 12, 1,234, 6.3 or twelve; none where it isn't one."""
    bare = text.lower().replace(",", "")
    return NUMBERS.index(bare) if bare in NUMBERS else float(bare) if re.fullmatch(r"[\d.]+", bare) else None


def read(name):
    return text_of(TOP / name)


def folder(pattern):
    """The texts of some files, by their paths below crates/."""
    return {str(file.relative_to(TOP / "crates")): text_of(file) for file in sorted(TOP.glob(f"crates/{pattern}"))}


def crate_of_path(path):
    return path.split("/")[0]


# ---- crates, wrong bodies, and the times of the gate


@functools.lru_cache(None)
def named_libraries():
    return ways.read_crates(TOP / "crates.txt")


def ways_of_all():
    return sum(ways.ways_of(named_libraries()).values())


@functools.lru_cache(None)
def below(crate):
    """A crate, and all on which it stands."""
    return {crate}.union(*map(below, named_libraries()[crate]))


def tried_by_gate():
    return sum(it.is_tried_by_gate for it in wrong_bodies())


@functools.lru_cache(None)
def times():
    """What each crate costs the gate, by bench/times.tsv."""
    return list(csv.DictReader(read("bench/times.tsv").splitlines(), delimiter="\t"))


def minutes(*columns):
    return round(sum(int(row[column] or 0) for row in times() for column in columns) / 60)


# ---- code


def crates_but_of_tests():
    return {it for it in crates() if not it.endswith("_tests") and it != "chance"}


def doors():
    """The crates that pass on a crate by its name; and `rasta_core`, which passes on the items of two."""
    name = "|".join(crates())
    whole = re.compile(rf"(?m)^pub use (?:(?:{name})::)*\{{?((?:{name})(?:, (?:{name}))*)\}}?;")
    return {crate_of_path(path) for path, text in folder("*/src/lib.rt").items() if whole.search(text)} | {"rasta_core"}


def files_with_handles():
    """The files that name the handles by which a call may end the process or wait."""
    return [path for path, text in folder("*/src/**/*.rt").items() if re.search(r"\b(Wait|Threads|Net)\b", text)]


def crates_with_handles():
    return set(map(crate_of_path, files_with_handles()))


def conditions(path):
    """How many lines of a file have a condition on a caller."""
    return sum("requires" in line for line in read(path).splitlines())


def variants(path, name):
    """How many values an enum has."""
    body = re.search(rf"(?ms)^pub enum {name}\b.*?^}}", read(f"crates/{path}"))[0]
    return len(re.findall(r"(?m)^    [A-Z]\w*", body))


# ---- stations and stored runs


def entries_of(text, table):
    """How many entries a table of a layout has: in an array, or each with a head of its own."""
    array = re.search(rf"(?ms)^{table} = \[(.*?)\]$", text)
    if not array:
        return text.count(f"[[{table}]]")
    return len(re.findall(r"\bname = " if "name = " in array[1] else r'"\w+"', array[1]))


def entries(path, *tables):
    return [entries_of(read(path), table) for table in tables]


def slow_routes(path):
    return read(path).count('aspect = "slow"')


def runs(*kinds):
    """What the stored runs of some kinds print, by the list of them."""
    text, lines = "\n" + read("crates/stored_runs/stdout"), read("crates/stored_runs/data/runs").splitlines()
    begins = [text.find(f"\n{line}\n") for line in lines] + [len(text)]
    return [text[begin:end] for line, begin, end in zip(lines, begins, begins[1:]) if line.split()[0] in kinds]


def statuses(*kinds):
    """How often a stored run of some kinds tells a status: once for each case."""
    return sum(len(re.findall(r"(?m)^status \d+$", it)) for it in runs(*kinds))


def done(kind):
    """How many stored runs of a kind end with status 0."""
    return sum(it.rstrip().endswith("\nstatus 0") for it in runs(kind))


def conflicts(layout):
    """How many pairs of routes conflict, by the stored table of a layout, which tells each pair twice."""
    table = next(it for it in runs("table") if it.startswith(f"\ntable {layout}\n"))
    return sum(row.rstrip(" |").split(" | ")[-1].count(": ") for row in table.splitlines() if row.startswith("| ")) // 2


def cases(name):
    return len(read(f"crates/stored_runs/data/layouts/{name}.cases").rstrip().split("\n\n"))


def restarts():
    """How many runs with a restart the stored runs of restarts make."""
    return sum(int(it) for text in runs("restarts") for it in re.findall(r": (\d+) runs, ", text))


# ---- what a page itself has


def behind(page, words):
    """The lines of the first list or table that comes behind some words of a page."""
    rest = read(page).split(words, 1)[1].split("\n", 1)[1].lstrip("\n")
    return rest.split("\n\n")[0].splitlines()


def items(page, words, begin):
    """How many of these lines begin so."""
    return sum(bool(re.match(begin, line)) for line in behind(page, words))


# ---- lists of a page


def named(page, begin, end):
    """The names in backticks between two texts of a page."""
    return set(re.findall(r"`(\w+)`", read(page).split(begin, 1)[1].split(end, 1)[0]))


def drawn(pattern):
    """The crates that stand so in the drawing of the map."""
    return set(re.findall(pattern, read(MAP).split("```")[1])) & set(crates())


# ---- where it is told

# of each page: what stands there with a group for each number, and what counts them
SIZE = r"(\d+) signals, (\d+) points, (\d+) sections, (\d+) routes"
TOLD = {
    "README.md": [
        (r"Of real equipment all (\w+) are assumed", lambda: [items("README.md", "## Premises", r"\d\. ")]),
        (f"ok: {SIZE}", lambda: entries("examples/crossover.toml", *SIZED)),
    ],
    "docs/DECISIONS.md": [
        (r"(\w+) crates, and `rasta_core`, are doors", lambda: [len(doors()) - 1]),
    ],
    "docs/INTERLOCKING.md": [
        (f"\nok: {SIZE}", lambda: entries("crates/station/data/small.toml", *SIZED)),
        (f"`ok: {SIZE}`", lambda: entries("examples/junction.toml", *SIZED)),
        (r"junction.toml` has (\w+) routes", lambda: entries("examples/junction.toml", "route")),
        (r" and (\d+) conflicts:", lambda: [conflicts("junction.toml")]),
    ],
    COST: [
        (r"proves (\d+) crates and their tests, tries (\d+) wrong", lambda: [len(crates()), tried_by_gate()]),
        (r"The ([\d,]+) wrong bodies of `by-hand/`", lambda: [len(wrong_bodies()) - tried_by_gate()]),
        (r"takes (\d+) min for proofs and programs, (\d+) for tests and", lambda: [minutes("proof s"), minutes("tests s")]),
        (r" (\d+) for wrong bodies: (\d+) min", lambda: [minutes("wrong bodies s"), minutes("proof s", "tests s", "wrong bodies s")]),
        (r"at most ([\d.]+) GB", lambda: [max(float(row["memory GB"]) for row in times())]),
    ],
    MAP: [
        (r"All (\d+) crates together have ([\d,]+) ways", lambda: [len(crates()), ways_of_all()]),
    ],
    "docs/PROTOCOL.md": [
        (r"Bytes that are no PDU have one of (\w+) faults", lambda: [variants("rasta_pdu/src/fault.rt", "PduFault")]),
        (r"Bytes that are no telegram have one of (\w+) faults", lambda: [variants("sci_telegram/src/fault.rt", "SciFault")]),
    ],
    TESTED: [
        (r"(\d+) stored runs of whole stations", lambda: [len(runs("sim", "replay", "restarts"))]),
        (r"(\d+) layouts, sound and faulty", lambda: [statuses("report", "commented") + cases("contents")]),
        (r"tells of (\d+) of these layouts", lambda: [statuses("explain") - cases("items")]),
        (r"and (\w+) more layouts for items", lambda: [cases("items")]),
        (r"(\d+) charts of sessions", lambda: [done("chart")]),
        (r"(\d+) plans: ", lambda: [done("plan")]),
        (r"In (\d+) runs the station is safe after every event", lambda: [restarts()]),
    ],
    "docs/STATIONS.md": [
        (r"halden.*, (\d+) signals, (\d+) points, (\d+) routes", lambda: entries(HALDEN, "signal", "point", "route")),
        (r"halden.* routes, (\d+) of them slow", lambda: [slow_routes(HALDEN)]),
        (r"neustadt.*, (\d+) points, (\d+) signals, (\d+) sections", lambda: entries(NEUSTADT, "point", "signal", "section")),
        (r"neustadt.*, (\w+) detectors and (\d+) routes", lambda: entries(NEUSTADT, "detector", "route")),
        (r"neustadt.* routes, (\d+) of them slow", lambda: [slow_routes(NEUSTADT)]),
    ],
    PROMISE: [
        (r"simulator/src/world.rt` \| (\w+) lines", lambda: [conditions("crates/simulator/src/world.rt")]),
        (r"`Threads`, `Wait` and `Net`. (\w+) files", lambda: [len(files_with_handles())]),
        (r"the (\w+) kinds of `Event`", lambda: [variants("simulator_event/src/event.rt", "Event")]),
        (r"Of real equipment all (\w+) are assumed", lambda: [items(PROMISE, "## The premises", r"\| \d+ \|")]),
    ],
    RECOVERY: [
        (r"(\w+) wrong bodies leave a station safe", lambda: [items(RECOVERY, "leave a station safe", "- ")]),
    ],
    WHY: [
        (r"It has (\w+) facts", lambda: [items(WHY, "still in flight:", r"\| \*\w+\* \|")]),
        (r"Each of these (\w+) rules is needed", lambda: [items(WHY, "rules is needed", r"\| [a-z]")]),
    ],
}

# of each page: what lists something, the list, and what it is to have
LISTED = {
    MAP: [
        ("the drawing", lambda: drawn(r"\w+"), crates_but_of_tests),
        ("what has a star in the drawing", lambda: drawn(r"(\w+)\*"), doors),
    ],
    PROMISE: [
        ("what uses handles", lambda: named(PROMISE, "files use them", "None is of"), crates_with_handles),
        ("what uses handles and isn't above `simulator`", set, lambda: crates_with_handles() & below("simulator")),
    ],
    COST: [
        ("bench/times.tsv", lambda: {row["crate"] for row in times()}, lambda: set(crates())),
    ],
}
