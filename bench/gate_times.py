#!/usr/bin/env python3
"""The gate with its times: runs `rt ci` at the top of the repository, tells the verdict of each wrong body as it comes,
and writes at the end, crate by crate, the processor time in seconds of the proof, the tests and the wrong bodies,
and the most memory that one process took; and then the prover's time by itself, the time of all that `rt ci` took, its own
and that of every process that it started, and the time on the clock.

    python3 bench/gate_times.py [CRATE ..]      with names: the wrong bodies of these crates alone (rt must-fail)
"""
import collections
import importlib.machinery
import importlib.util
import inspect
import os
import resource
import shutil
import sys
import tempfile
import time

# what is noted of a run of the prover that is for no crate
NO_CRATE = "-"

# stands for the prover: runs it, and notes what it took
NOTING = """#!{python}
import os, sys
child = os.fork()
if not child:
    os.execv({prover!r}, [{prover!r}, *sys.argv[1:]])
_, status, used = os.wait4(child, 0)
words = sys.argv[1:]
crate = words[words.index("--crate-name") + 1] if "--crate-name" in words else {no_crate!r}
kind = "edits" if os.path.basename(os.getcwd()).startswith("rt-edit-") else "tests" if "--test" in words else "proof"
with open({notes!r}, "a") as it:
    it.write(f"{{crate}} {{kind}} {{used.ru_utime + used.ru_stime:.1f}} {{used.ru_maxrss}}\\n")
if os.WIFSIGNALED(status):
    os.kill(os.getpid(), os.WTERMSIG(status))
sys.exit(os.WEXITSTATUS(status))
"""


def load_rt():
    path = os.path.realpath(shutil.which("rt"))
    loader = importlib.machinery.SourceFileLoader("rt", path)
    module = importlib.util.module_from_spec(importlib.util.spec_from_loader("rt", loader))
    loader.exec_module(module)
    return module


def is_refused(rt, came_to):
    """Whether the prover refused an edit, by what rt says that its try came to: a word, or with older kits whether it was refused."""
    return came_to in ((rt.REFUSED, rt.AT_LIMIT) if hasattr(rt, "REFUSED") else (True,))


def tell_each_edit(rt):
    """Has rt print the verdict of an edit as soon as it is known."""
    silent = rt.must_fail

    def told(*given):
        verdict = silent(*given)
        print(verdict[1].split(": ", 2)[0], "refused" if is_refused(rt, verdict[0]) else "NOT REFUSED", flush=True)
        return verdict

    rt.must_fail = told


def table(notes):
    times, memory = collections.defaultdict(collections.Counter), collections.Counter()
    for line in notes:
        crate, kind, seconds, kilobytes = line.split()
        if crate == NO_CRATE:
            continue
        times[crate][kind] += float(seconds)
        memory[crate] = max(memory[crate], int(kilobytes))
    kinds = ("proof", "tests", "edits")
    print("\n| Crate | Proof | Tests | Wrong bodies | Memory |\n|---|---|---|---|---|")
    for crate, spent in sorted(times.items()):
        print(f"| `{crate}` |", " | ".join(f"{spent[kind]:.0f}" for kind in kinds), f"| {memory[crate] / 1e6:.1f} GB |")
    sums = [sum(spent[kind] for spent in times.values()) for kind in kinds]
    print("| all |", " | ".join(f"{it:.0f}" for it in sums), f"| {max(memory.values(), default=0) / 1e6:.1f} GB |")
    return sum(sums)


def used():
    """The processor time of this process and of all that it started, in seconds."""
    whose = resource.RUSAGE_SELF, resource.RUSAGE_CHILDREN
    return sum(it.ru_utime + it.ru_stime for it in map(resource.getrusage, whose))


def main(names):
    rt = load_rt()
    tell_each_edit(rt)
    with tempfile.TemporaryDirectory(prefix="gate-times-") as room:
        notes, prover = f"{room}/notes", f"{room}/rattle"
        with open(prover, "w") as it:
            it.write(NOTING.format(python=sys.executable, prover=rt.rtlib.RATTLE, notes=notes, no_crate=NO_CRATE))
        os.chmod(prover, 0o755)
        open(notes, "w").close()
        rt.rtlib.RATTLE = prover
        begun = time.monotonic()
        # some kits keep what passed in an earlier run, unless they are told not to
        anew = {"anew": True} if "anew" in inspect.signature(rt.ci).parameters else {}
        status = rt.edits_alone(names) if names else rt.ci(**anew)
        with open(notes) as it:
            proving = table(it)
    print(f"\nprover: {proving / 60:.0f} minutes of processor time")
    print(f"all in: {used() / 60:.0f} minutes of processor time")
    print(f"on the clock: {(time.monotonic() - begun) / 60:.0f} minutes", flush=True)
    return status


if __name__ == "__main__":
    sys.exit(main(sys.argv[1:]))
