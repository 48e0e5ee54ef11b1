#!/usr/bin/env python3
"""The first `rt run` of a program, with its libraries built side by side: as many at a time as there are processors and memory. The
longest chain of crates has all processors, and the others take what it leaves. Of a library the crates above load what it states,
and not its proofs. `rt run` by itself builds one after the other, and loads all proofs below. It finds later what is built here. This
tells how far it is, and at its end the processor time and the time on the clock.

    python3 bench/first_run.py CRATE [WORD ..]      the words are the program's arguments
    python3 bench/first_run.py CRATE --libraries    builds the libraries alone
"""
import contextlib
import copy
import csv
import os
import pathlib
import queue
import shutil
import subprocess
import sys
import tempfile
import threading
import time

from gate_times import load_rt, used

ROOT = str(pathlib.Path(__file__).resolve().parent.parent)
printing = threading.Lock()


def build_library(rt, crate, jobs):
    """Builds a library of which the crates above load what it states, and not its proofs once more, as those of the kit are built. It
    notes what the library is made from, by which `rt` knows it as built."""
    noted, stamp = f"{crate.folder}/out/rlib/stamp", crate.stamp()
    if crate.is_built():
        return 0
    shutil.rmtree(os.path.dirname(noted), ignore_errors=True)
    os.makedirs(os.path.dirname(noted))
    words = [*crate.words(["--jobs", str(jobs)]), "--statements"]
    status = crate.call(rt.rtlib.RATTLE, "build", *words, "-o", crate.rlib)
    if not status and stamp == crate.stamp():
        pathlib.Path(noted).write_text(stamp)
    return status


def build(rt, crate, jobs, priority):
    """Builds one library, behind those of a lower number, and tells what came of it."""
    if priority:
        os.setpriority(os.PRIO_PROCESS, threading.get_native_id(), priority)
    crate = copy.copy(crate)
    with tempfile.TemporaryFile("a+", errors="replace") as crate.out:
        status = build_library(rt, crate, jobs)
        with printing:
            print(f"{crate.name} {'not built' if status else 'built'}", flush=True)
            if status:
                crate.out.seek(0)
                print(crate.out.read(), flush=True)
    return not status


def crates_of(rt):
    """All crates, each read as `rt` reads one that it works on."""
    made = rt.rtlib.Crate.__init__

    def make(self, *given, **named):
        made(self, *given, **named)
        rt.read_files(self)

    rt.rtlib.Crate.__init__ = make
    return rt.rtlib.crates_below(ROOT)


def build_libraries(rt, name):
    below = next(it for it in crates_of(rt) if it.name == name).below()
    held = rt.rtlib.lock(below)
    # some kits share what their checks keep, if they are told to
    if hasattr(rt, "share_work"):
        rt.share_work(True)
    # its first call sets the handler of a signal, which only the main thread may
    rt.rtlib.guarded()
    built = SideBySide(rt, below).are_built()
    for it in held:
        os.close(it)
    return built


def seconds_of(crates):
    """The seconds of processor time that the proof of each crate takes, as bench/times.tsv has them."""
    with open(f"{ROOT}/bench/times.tsv", newline="", encoding="utf-8") as file:
        told = {row["crate"]: int(row["proof s"]) for row in csv.DictReader(file, delimiter="\t")}
    return {it.name: told.get(it.name, 0.1 * it.count(b"\n")) for it in crates}


def chains(crates, own):
    """Of each crate the seconds of the longest chain of crates that begins with it, each below the next."""
    longest = dict(own)
    for crate in reversed(crates):
        for low in crate.below():
            longest[low.name] = max(longest[low.name], own[low.name] + longest[crate.name])
    return longest


class SideBySide:
    """Libraries, each of which is built once those below it are. The crate with the longest chain behind it is what all others wait
    for, and has two jobs at least: those that begin beside it leave it room in memory, and work behind it."""

    def __init__(self, rt, crates):
        self.rt, self.seconds, self.begun = rt, seconds_of(crates), time.monotonic()
        self.longest = chains(crates, self.seconds)
        self.processors, self.memory = rt.processors(), 0.85 * rt.free()
        self.left = sorted(crates, key=lambda it: -self.longest[it.name])
        self.running, self.built, self.ended = [], set(), queue.SimpleQueue()

    def needs(self, crate):
        """The most memory that a build takes, in bytes: measured, a library of statements takes half of what `rt` reckons with at most,
        and the processes of its jobs share most of what they read."""
        return 0.6 * self.rt.need(crate)

    def begin(self, crate, priority, jobs):
        def work():
            done = False
            try:
                done = build(self.rt, crate, jobs, priority)
            finally:
                self.ended.put((crate, done))

        self.left.remove(crate)
        self.running.append(crate)
        threading.Thread(target=work).start()

    def jobs_for(self, waiting):
        """The jobs of a build: one, unless processors would have nothing to do. For a second job costs half as much again, all in."""
        return max(1, (self.processors - len(self.running)) // waiting)

    def begin_those_that_may(self):
        ready = [it for it in self.left if all(low.name in self.built for low in it.below())]
        first = max([*self.running, *self.left], key=lambda it: self.longest[it.name])
        if first in ready:
            ready.remove(first)
            self.begin(first, 0, max(2, self.jobs_for(len(ready) + 1)))
        kept = 0 if first in self.running else self.needs(first)
        for place, crate in enumerate(ready):
            is_full = len(self.running) >= self.processors
            needs = sum(map(self.needs, self.running)) + self.needs(crate) + kept
            if self.running and (is_full or needs > self.memory):
                break
            # what will soon be waited for goes before what won't be for long
            is_near = 2 * self.longest[crate.name] > self.longest[first.name]
            self.begin(crate, 10 if is_near else 19, self.jobs_for(len(ready) - place))

    def tell_how_far(self):
        """How many libraries stand, and how long the others will take if they go on so."""
        done = sum(self.seconds[it] for it in self.built)
        left = (time.monotonic() - self.begun) * (sum(self.seconds.values()) / max(1, done) - 1)
        with printing:
            print(f"{len(self.built)} of {len(self.seconds)} libraries, some {left / 60:.0f} min left", flush=True)

    def are_built(self):
        """Builds them all. Where one can't be, no other one begins, and those that have begun end."""
        all_well = True
        while self.running or (all_well and self.left):
            if all_well:
                self.begin_those_that_may()
            crate, done = self.ended.get()
            self.running.remove(crate)
            all_well = all_well and done
            if done:
                self.built.add(crate.name)
                self.tell_how_far()
        return all_well


@contextlib.contextmanager
def files_in_memory(rt):
    """The prover writes and reads a small file for each function below. They go to memory where there is room for them, and where
    nobody has said another place."""
    if "TMPDIR" in os.environ or not os.path.isdir("/dev/shm") or rt.free() < 12_000_000_000:
        yield
        return
    with tempfile.TemporaryDirectory(dir="/dev/shm") as room:
        os.environ["TMPDIR"] = room
        yield


def run(rt, name, words):
    """Builds and runs the program itself, over libraries that are built."""
    jobs = ["--jobs", str(rt.processors())]
    return subprocess.run(["rt", "run", *jobs, "--", *words], cwd=f"{ROOT}/crates/{name}").returncode


def main(name, *words):
    rt = load_rt()
    begun = time.monotonic()
    with files_in_memory(rt):
        status = 0 if build_libraries(rt, name) else 1
        if not status and words != ("--libraries",):
            status = run(rt, name, words)
    print(f"\nall in: {used() / 60:.0f} minutes of processor time", file=sys.stderr)
    print(f"on the clock: {(time.monotonic() - begun) / 60:.0f} minutes", file=sys.stderr)
    return status


if __name__ == "__main__":
    if len(sys.argv) < 2:
        sys.exit(__doc__)
    sys.exit(main(*sys.argv[1:]))
