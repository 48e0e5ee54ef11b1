#!/usr/bin/env python3
"""Where the proof of a crate takes its time, function by function: the prover writes each module as soon as it has checked it, and
what passed since the one before is counted for its function. The first one has what loading the libraries took. The libraries below
are taken as `rt check` or `rt lib` built them here.

    python3 bench/slow_functions.py CRATE [HOW MANY]
"""
import collections
import os
import pathlib
import re
import subprocess
import sys
import tempfile
import time

from first_run import ROOT, crates_of
from gate_times import load_rt

# a module of the crate that is checked: of its definitions or its proofs, and of which function
MODULE = re.compile(r"Rattle-\w+-(specs|proofs)\.(.+?)(?:\.[^.]+)?(?:\.decls)?\.oantt")


def check(rt, crate, kept):
    """Checks the crate, and answers whether it is proved."""
    words = crate.words(["--jobs", "1"], keeps=False) + ["--incremental", kept]
    ran = subprocess.run([rt.rtlib.RATTLE, "check", *words], cwd=crate.folder, stdout=subprocess.PIPE, stderr=subprocess.STDOUT, text=True)
    return "logic=proved" in ran.stdout


def seconds_in(kept, begun):
    """The seconds before each module that was written, by its function."""
    written = sorted((it.stat().st_mtime, it.name) for it in pathlib.Path(kept).rglob("*.oantt"))
    seconds, last = collections.Counter(), begun
    for at, name in written:
        found = MODULE.fullmatch(name)
        seconds[f"{found[2]} ({found[1]})" if found else name] += at - last
        last = at
    return seconds


def main(name, most="30"):
    os.chdir(ROOT)
    rt = load_rt()
    rt.rtlib.guarded()
    crate = next(it for it in crates_of(rt) if it.name == name)
    with tempfile.TemporaryDirectory(prefix="slow-functions-") as kept:
        begun = time.time()
        proved = check(rt, crate, kept)
        seconds = seconds_in(kept, begun)
    for function, took in seconds.most_common(int(most)):
        print(f"{took:6.1f} s {function}")
    print(f"{sum(seconds.values()):6.0f} s in all{'' if proved else ', NOT PROVED'}")
    return 0 if proved else 1


if __name__ == "__main__":
    sys.exit(main(*sys.argv[1:]))
