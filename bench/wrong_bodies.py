#!/usr/bin/env python3
"""Tries the wrong bodies that the gate leaves out: those of crates/NAME/by-hand, of each crate named, or of all. It works on a
copy of what is committed, and ends with status 0 where the prover refuses each.

Each is tried at the functions that it changes: `rattle check --only` has to refuse one of them. One that is proved there is tried
on the whole crate. First the crate is proved as it stands. Wrong bodies of a crate that change different functions are tried in one
run: a function that has no proof since it calls another wrong one is tried once more, without that.

    python3 bench/wrong_bodies.py [--whole] [--jobs N] [--log FILE] [--libraries CHECKOUT] [CRATE ..]

--whole      tries each on its whole crate, as the gate does those of must-fail
--jobs       how many crates are tried at a time
--log        keeps each verdict; what stands there is not tried again while its text, its crate and all below are the same.
             bench/wrong_bodies.tsv is such a log
--libraries  a checkout, not changed since it built libraries: those of equal texts are taken from there, and not from this one.
             A library that isn't there is proved
"""
import argparse
import collections
import concurrent.futures
import functools
import hashlib
import os
import pathlib
import re
import shutil
import subprocess
import sys
import tempfile
import threading

from gate_times import is_refused, load_rt, used

REFUSED, NOT_REFUSED, BAD_EDIT, NOT_TRIED = "refused", "NOT REFUSED", "BAD EDIT", "NOT TRIED"
# how many wrong bodies are tried in one run: each has the proof of a function in memory
TOGETHER = 16

# a function's first line, a block that holds functions, and the first line of what the two parted
FUNCTION = re.compile(r'( *)(?:pub(?:\([^)]*\))? )?(?:const )?(?:unsafe )?(?:extern "C" )?fn (\w+)')
HOLDER = re.compile(r"( *)(?:pub(?:\([^)]*\))? )?(?:unsafe )?(?:impl\b|trait \w|mod \w+ \{)")
IMPL = re.compile(r"impl(?:<.*?>)? (?:([\w:]+)(?:<(.*)>)? for )?([\w:]+)")
TYPE = re.compile(r"(?m)^(?:pub(?:\([^)]*\))? )?(?:struct|enum|union) (\w+)")
# what a proof file says that names what the edit took away
NAMES_WHAT_IS_GONE = re.compile(r"(\./)?proofs/.*(has no field|is not in scope|has no `|was not admitted)")

rt = load_rt()


def module_of(path):
    """A file's module, in segments below the crate."""
    segments = path.removeprefix("src/").removesuffix(".rt").split("/")
    return segments[:-1] if segments[-1] in ("lib", "main", "mod") else segments


def homes_of(crate):
    """The module in which each type of a crate stands: the prover names what a type's blocks hold by it, wherever they stand."""
    found = {}
    for file in pathlib.Path(crate.folder, "src").rglob("*.rt"):
        module = module_of(str(file.relative_to(crate.folder)))
        found |= dict.fromkeys(TYPE.findall(file.read_text()), module)
    return found


def home_of_holder(header, homes):
    """The module of the type whose block it is, if the crate has that."""
    found = IMPL.match(header)
    return homes.get(found[3].split("::")[-1]) if found else None


def name_of_holder(header):
    """How the prover names a block that holds functions: `cut::LinesIterator` has what `impl Iterator for Lines` in `cut` has."""
    found = IMPL.match(header)
    if not found:
        return re.search(r"(?:trait|mod) (\w+)", header)[1]
    trait, arguments, held = found.groups()
    last = [re.sub(r"<.*", "", it).split("::")[-1] for it in (held, trait or "", arguments or "")]
    return "".join(last)


def functions_of(path, text, homes):
    """The text of each function by its path below the crate, and what stands in none. It goes by the layout of `rt fmt`: a block
    ends at a brace as far in as its first line begins."""
    found, rest, holders, name, inside = {}, [], [], None, ""
    lines = text.split("\n")
    for at, line in enumerate(lines):
        head = FUNCTION.match(line)
        if head and (name is None or len(head[1]) <= len(inside)):
            inside = head[1]
            outer = [it for it in holders if it[0] < len(inside)]
            module = next((home for _, _, home in outer if home is not None), module_of(path))
            name = "::".join([*module, *(it for _, it, _ in outer), head[2]])
            found[name] = ""
        if name is None:
            rest.append(line)
            if HOLDER.match(line):
                header = " ".join("\n".join(lines[at:]).split("{", 1)[0].split())
                holders.append((len(HOLDER.match(line)[1]), name_of_holder(header), home_of_holder(header, homes)))
            elif holders and line == " " * holders[-1][0] + "}":
                holders.pop()
            continue
        found[name] += line + "\n"
        if line in (inside + "}", inside + "{}") or head and is_whole(line):
            name = None
    return found, rest


def is_whole(line):
    """Whether a function's first line is its only one."""
    return line.endswith(";") or line.endswith("}") and line.count("{") == line.count("}")


class WrongBody:
    """An edit of a crate: the functions that it changes, each with its file, its text and its new text; none where it also changes
    what stands in no function."""

    def __init__(self, crate, file):
        self.crate, self.file = crate, file
        self.label = f"{crate.name}/{os.path.basename(file).removesuffix('.edit')}"
        self.texts, self.fault = rt.read_edit(file, crate.folder)
        self.changes, homes = {}, homes_of(crate)
        for path, text in (self.texts or {}).items():
            before, rest = functions_of(path, pathlib.Path(crate.folder, path).read_text(), homes)
            after, new_rest = functions_of(path, text, homes)
            if rest != new_rest or before.keys() != after.keys():
                self.changes = {}
                break
            self.changes |= {it: (path, before[it], after[it]) for it in after if before[it] != after[it]}

    def sum(self):
        it = hashlib.sha256(self.crate.stamp().encode())
        it.update(pathlib.Path(self.file).read_bytes())
        return it.hexdigest()[:16]


class Run:
    """A check of some functions of a crate, with some wrong bodies in place of its own."""

    def __init__(self, crate, kept, functions, bodies):
        texts = self.texts = {}
        for path, before, after in (it for body in bodies for it in body.changes.values()):
            text = texts.get(path) or pathlib.Path(crate.folder, path).read_text()
            texts[path] = text.replace(before, after)
        only = [word for it in functions for word in ("--only", it)]
        ran = rt.checked(crate, texts, ["--jobs", "1", *only], kept)
        self.crate, self.lines = crate, ran.stdout.rstrip("\n").split("\n")
        self.lacks_a_function = "has no function `" in ran.stdout
        self.unread = next((it for it in self.lines if rt.unread(it, texts)), "")
        is_stale = rt.rtlib.STALE.search(ran.stdout)
        self.reached_the_prover = self.lines[-1].startswith("only=") and not self.unread and not is_stale
        found = (re.fullmatch(r"fn (\S+): (.*)", it) for it in self.lines)
        self.said = {it[1]: it[2] for it in found if it}

    def says(self, function):
        """What the prover says of a function, or of a closure in it that it does not prove."""
        module, _, name = f"{self.crate.name}::{function}".rpartition("::")
        closures = [said for it, said in self.said.items() if it.startswith(f"{module}::fn::{name}::")]
        return next(filter(is_refusal, closures), self.said.get(f"{module}::{name}", ""))

    def why(self, body):
        """The first line that tells why a function of a wrong body is not proved: in its proof files, or in its own text."""
        folders = tuple(f"proofs/{it.replace('::', '/')}/" for it in body.changes)
        own = []
        for line in self.lines:
            told = re.match(r"(?:note: )?(?:\./)?((\S+?):(\d+):\d+: .*)", line)
            if told and (told[2].startswith(folders) or self.is_within(body, told[2], int(told[3]))):
                own.append(told[1])
        first = next((it for it in own if not NAMES_WHAT_IS_GONE.match(it)), None)
        if own and not first:
            return f"only because a proof file names what the edit took away: {own[0]}"
        return first or "its proof is not accepted"

    def is_within(self, body, path, line):
        """Whether a line of a file is one of a function that the body changes."""
        for file, _, text in body.changes.values():
            first = self.texts[file].split(text)[0].count("\n") + 1
            if file == path and first <= line < first + text.count("\n"):
                return True
        return False


class Trial:
    """The wrong bodies of one crate, tried over what the checks before kept."""

    def __init__(self, crate, kept, tell):
        self.crate, self.kept, self.tell = crate, kept, tell

    def try_all(self, bodies):
        left = []
        for it in bodies:
            if it.fault:
                self.tell(it, BAD_EDIT, it.fault)
            elif not it.changes:
                self.try_whole(it, "it changes what stands in no function")
            else:
                left.append(it)
        while left:
            chosen = different(left)
            left = self.try_together(chosen) + [it for it in left if it not in chosen]

    def try_together(self, chosen):
        """Tries wrong bodies of different functions, and returns those of which nothing is told yet."""
        ran = Run(self.crate, self.kept, [name for it in chosen for name in it.changes], chosen)
        if len(chosen) == 1:
            self.tell_one(chosen[0], ran)
            return []
        waiting = [it for it in chosen if not self.is_told(it, ran)]
        if len(waiting) < len(chosen):
            return waiting
        half = len(chosen) // 2
        return self.try_together(chosen[:half]) + self.try_together(chosen[half:])

    def tell_one(self, body, ran):
        if ran.lacks_a_function:
            self.try_whole(body, "its function is not found")
        elif not ran.reached_the_prover:
            self.tell(body, BAD_EDIT, ran.unread or " / ".join(ran.lines[:3]))
        elif not self.is_told(body, ran):
            self.try_whole(body, "nothing is said of its function")

    def is_told(self, body, ran):
        said = {it: ran.says(it) for it in body.changes} if ran.reached_the_prover else {}
        refused = [it for it, text in said.items() if is_refusal(text)]
        if refused:
            self.tell(body, REFUSED, f"at {', '.join(refused)}: {ran.why(body)}")
        elif said and all(it == "proved" for it in said.values()):
            self.try_whole(body, f"{', '.join(said)} proved with it")
        else:
            return False
        return True

    def try_whole(self, body, why_whole):
        verdict, why = verdict_of_rt(*rt.must_fail(self.crate, body.file, ["--jobs", "1"], self.kept))
        self.tell(body, verdict, f"on the whole crate ({why_whole}): {why}")


def is_refusal(said):
    """Whether the prover refuses the function itself, and not because of what it calls."""
    return said == "not proved" or said.startswith("no proof") and "which is not proved" not in said


def different(bodies):
    """Some wrong bodies of which no two change one function."""
    chosen, taken = [], set()
    for it in bodies:
        if len(chosen) < TOGETHER and not taken & it.changes.keys():
            chosen.append(it)
            taken |= it.changes.keys()
    return chosen


def verdict_of_rt(came_to, text):
    why = text.split(": ", 1)[1]
    if is_refused(rt, came_to):
        return REFUSED, why
    return next((it for it in (BAD_EDIT, NOT_TRIED) if why.startswith(it)), NOT_REFUSED), why


class Log:
    """What was told, by what it was told of."""

    def __init__(self, file):
        self.file, self.told, self.printing = file, {}, threading.Lock()
        if file and os.path.exists(file):
            for line in pathlib.Path(file).read_text().splitlines():
                sum, label, verdict, _ = line.split("\t", 3)
                self.told[sum, label] = verdict

    def tell(self, body, verdict, why):
        line = "\t".join([body.sum(), body.label, verdict, " ".join(why.split())[:300]])
        with self.printing:
            self.told[body.sum(), body.label] = verdict
            print(f"{body.label}: {verdict}: {' '.join(why.split())[:160]}", flush=True)
            if self.file:
                with open(self.file, "a") as it:
                    it.write(line + "\n")

    def verdict_of(self, body):
        return self.told.get((body.sum(), body.label))


def copy_of_what_is_committed(top, room):
    """A copy whose must-fail folders hold what stood by hand."""
    copy = f"{room}/copy"
    subprocess.run(["git", "clone", "-q", top, copy], check=True)
    for folder in pathlib.Path(copy, "crates").iterdir():
        shutil.rmtree(folder / "must-fail", ignore_errors=True)
        if (folder / "by-hand").is_dir():
            (folder / "by-hand").rename(folder / "must-fail")
    return copy


def take_libraries(crates, checkout):
    """Gives the crates the libraries that were built in a checkout of the same texts."""
    theirs = {it.name: it for it in rt.rtlib.crates_below(checkout)}
    for crate in crates:
        other = theirs.get(crate.name)
        if other and os.path.isdir(other.rlib) and other.stamp() == crate.stamp():
            to = os.path.dirname(crate.rlib)
            shutil.copytree(os.path.dirname(other.rlib), to)
            pathlib.Path(to, "stamp").write_text(crate.stamp())


def is_proved(crate):
    """Proves a crate as it stands, where it has no library that says so."""
    if crate.makes_rlib():
        return crate.build_rlib(["--jobs", "1"], anew=False) == 0
    return rt.checked(crate, {}, ["--jobs", "1"], None).returncode == 0


def try_whole_crate(crate, bodies, tell):
    for body in bodies:
        tell(body, *verdict_of_rt(*rt.must_fail(crate, body.file, ["--jobs", "1"])))


def try_crate(crate, bodies, log, whole):
    if whole:
        try_whole_crate(crate, bodies, log.tell)
        return
    with tempfile.TemporaryDirectory(prefix="wrong-bodies-kept-") as kept:
        Trial(crate, kept, log.tell).try_all(bodies)


def try_crates(bodies, log, given, libraries):
    """Tries wrong bodies, by their crates. It is false where a crate is not proved as it stands."""
    wanted = [*dict.fromkeys(it for crate in bodies for it in [*crate.below(), crate])]
    take_libraries(wanted, libraries)
    if not all(map(is_proved, wanted)):
        return False
    with concurrent.futures.ThreadPoolExecutor(given.jobs) as pool:
        for it in [pool.submit(try_crate, crate, some, log, given.whole) for crate, some in bodies.items()]:
            it.result()
    return True


def main():
    words = argparse.ArgumentParser(description=__doc__, formatter_class=argparse.RawDescriptionHelpFormatter)
    words.add_argument("--whole", action="store_true")
    words.add_argument("--jobs", type=int, default=1)
    words.add_argument("--log")
    words.add_argument("--libraries")
    words.add_argument("crates", nargs="*", metavar="CRATE")
    given = words.parse_args()
    top = str(pathlib.Path(__file__).resolve().parent.parent)
    log = Log(given.log)
    # (its first call sets a signal's handler, which only the main thread may)
    rt.rtlib.guarded()
    rt.rtlib.Crate.stamp = functools.lru_cache(None)(rt.rtlib.Crate.stamp)
    with tempfile.TemporaryDirectory(prefix="wrong-bodies-") as room:
        os.chdir(copy_of_what_is_committed(top, room))
        crates = [it for it in rt.rtlib.crates_below(os.getcwd()) if not given.crates or it.name in given.crates]
        bodies = {it: [WrongBody(it, file) for file in rt.edits_of(it)[0]] for it in crates}
        untried = {it: [body for body in some if not log.verdict_of(body)] for it, some in bodies.items()}
        untried = {it: some for it, some in untried.items() if some}
        if not try_crates(untried, log, given, os.path.realpath(given.libraries or top)):
            return 1
        counts = collections.Counter(log.verdict_of(body) for some in bodies.values() for body in some)
    print(", ".join(f"{counts[it]} {it}" for it in (REFUSED, NOT_REFUSED, BAD_EDIT, NOT_TRIED)))
    print(f"{sum(map(len, untried.values()))} tried now, in {used():.0f} s of processor time")
    return 1 if set(counts) - {REFUSED} else 0


if __name__ == "__main__":
    sys.exit(main())
