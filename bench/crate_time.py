#!/usr/bin/env python3
"""What a crate costs the gate: the processor time of its proof from nothing, and of its tests' where it has tests, with the
programs that the gate builds of it. The libraries below are taken as `rt check` or `rt lib` built them here.

    python3 bench/crate_time.py [--proof | --tests] CRATE ..
"""
import os
import pathlib
import resource
import shutil
import sys
import tempfile

from first_run import crates_of
from gate_times import load_rt, used

# which runs are timed, by the flag that asks for one alone
KINDS = {"--proof": (False,), "--tests": (True,)}


def time_of(crate, tests):
    """The processor time of what the gate does with the crate or with its tests, and whether all was proved."""
    kept = f"{crate.folder}/out/rlib"
    if os.path.isdir(kept):
        shutil.copytree(kept, f"{kept}-kept")
    try:
        with tempfile.TemporaryFile("w+", errors="replace") as crate.out:
            before = used()
            crate.ci(["--jobs", "1"], tests)
            took = used() - before
            crate.out.seek(0)
            # its status tells too whether the libraries below were proved from nothing, which they weren't
            return took, "logic=proved" in crate.out.read()
    finally:
        if os.path.isdir(f"{kept}-kept"):
            shutil.rmtree(kept, ignore_errors=True)
            os.rename(f"{kept}-kept", kept)


def main(words):
    kinds = next((KINDS[it] for it in words if it in KINDS), (False, True))
    names = [it for it in words if it not in KINDS]
    root = pathlib.Path(__file__).resolve().parent.parent
    os.chdir(root)
    rt = load_rt()
    rt.rtlib.guarded()
    rt.Crate.cuts_libraries = True
    rt.Crate.allowed = rt.handles_of(str(root))
    rt.rtlib.Crate = rt.Crate
    crates = {it.name: it for it in crates_of(rt)}
    well = True
    for name in names:
        for tests in kinds:
            crate = crates[name]
            if tests and not crate.has_tests():
                continue
            seconds, proved = time_of(crate, tests)
            well &= proved
            print(f"{name} {'tests' if tests else 'proof'}: {seconds:.0f} s{'' if proved else ', NOT PROVED'}", flush=True)
    print(f"at most {resource.getrusage(resource.RUSAGE_CHILDREN).ru_maxrss / 1e6:.1f} GB in one process")
    return 0 if well else 1


if __name__ == "__main__":
    sys.exit(main(sys.argv[1:]))
