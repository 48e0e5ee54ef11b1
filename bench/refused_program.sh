#!/usr/bin/env bash
# Runs the built program station with one call for memory refused, and with all from that one on, for each call that it makes:
# it has to end as with memory, or to tell want of memory in one line and end with status 1, and what it has written then
# is whole lines of its answer; or an event of `sim` that lacked memory was answered `no 6`, and what follows may differ.
# No two runs of `run` answer alike, since they go by the machine's clock. It has to show a picture that is safe, or to tell
# want of memory and end with status 1; and what it has recorded by then replays as the same session.
# Needs a C compiler, and crates/station/out/station (rt run in crates/station).
# usage: bench/refused_program.sh [WORD..], the words of its command line; without any, a short one of each kind is tried.
# STEP=N tries each Nth call alone, JOBS=N so many runs at once; of `run` four times as many, since they wait for the clock.
set -eu
bench=$(cd "$(dirname "$0")" && pwd)
room=$(mktemp -d)
trap 'rm -rf "$room"' EXIT
cc -shared -fPIC -O1 -o "$room/refuse.so" "$bench/refuse_malloc.c" -ldl
python3 - "$bench/../crates" "$room" "$@" <<'PY'
import os, re, subprocess, sys
from concurrent.futures import ThreadPoolExecutor

crates, room, words = os.path.realpath(sys.argv[1]), sys.argv[2], sys.argv[3:]
STATION = os.environ.get("STATION", f"{crates}/station/out/station")
STEP, JOBS = int(os.environ.get("STEP", 1)), int(os.environ.get("JOBS", os.cpu_count() or 1))
WANT = re.compile(rb"(out of memory|(?:session|picture) fault 7 at line \d+|layout fault 8 OutOfMemory|table fault 10 OutOfMemory|7 OutOfMemory)\n")
SMALL = f"{crates}/stored_runs/data/small.toml"
EVENTS = "flow 7000\nresume\nset R1\nflow 200\nreach P1 right\nflow 300\noccupy GA\nrestart S1 7000 5\npicture\n"
DATAGRAM = "32003818020000000100000000000000000000007017000000000000303330331400000000000000000023e6b5e69928e086"
SCRIPT = "at 300 occupy GA\nat 500 resume\nat 700 clear GA\n"


def stored(name, text):
    with open(f"{room}/{name}", "w") as file:
        file.write(text)
    return f"{room}/{name}"


def short_ones():
    """A command of each kind."""
    events, script = stored("events", EVENTS), stored("script", SCRIPT)
    picture = stored("picture", "signal S1 proceed R1\npoint P1 right\nsection GA occupied\nroute R1 set\n")
    session = f"{crates}/stored_runs/data/proceed.session"
    traffic = f"{crates}/stored_runs/data/traffic.session"
    with open(SMALL) as file:
        faulty = stored("faulty.toml", file.read().replace('"P1.tip"', '"P1.end"'))
    return [["--help"], ["check", SMALL], ["check", SMALL, "--explain"], ["check", faulty, "--explain"],
            ["table", SMALL], ["table", SMALL, "--csv"], ["sim", SMALL, events], ["replay", SMALL, session],
            ["plan", SMALL], ["plan", SMALL, "--route", "R1"], ["plan", SMALL, "--picture", picture],
            ["decode", "--hex", DATAGRAM], ["decode", "--hex", DATAGRAM, "--layout", SMALL],
            ["decode", SMALL, traffic], ["chart", SMALL, traffic], ["capture", SMALL, traffic, f"{room}/capture", "--force"],
            ["run", SMALL, "--script", script, "--record", "record", "--for", "1000"]]


def carried_out(words, place, **how):
    """The status of a run, what it wrote and told, and the record that it left."""
    at = words.index("--record") + 1 if "--record" in words else None
    record = f"{room}/record{place}"
    if at:
        words = [*words[:at], record, *words[at + 1:]]
    how = {**os.environ, "LD_PRELOAD": f"{room}/refuse.so", **{name: str(value) for name, value in how.items()}}
    run = subprocess.run([STATION, *words], env=how, capture_output=True)
    left = None
    if at and os.path.exists(record):
        replayed = subprocess.run([STATION, "replay", words[1], record], capture_output=True)
        left = replayed.returncode, replayed.stdout
        os.remove(record)
    return run.returncode, run.stdout, run.stderr, left


def tells_want(status, out, err):
    return status == 1 and WANT.fullmatch(err)


def is_right_run(wanted, got):
    """Whether a run of `run` is as it has to be."""
    status, out, err, left = got
    if left not in (None, (0, b"same\n")):
        return False
    if status == wanted[0] == 0:
        return left is not None and out.endswith(b"safe\n") and b"unsafe" not in out and not err
    return tells_want(status, out, err) and (not out or out.endswith(b"\n"))


def is_right_explained(wanted, got):
    """Whether a second line stands behind that of a fault, if one is wanted; either may tell want of memory."""
    status, out, err, _ = got
    first, *second = err.splitlines(keepends=True) or [b""]
    known, *told = wanted[2].splitlines(keepends=True) or [b""]
    return status == 1 and not out and (first == known or WANT.fullmatch(first)) and second in ([], told, [b"memory is lacking\n"])


def is_right(words, wanted, got):
    if words[0] == "run":
        return is_right_run(wanted, got)
    status, out, err, _ = got
    if got == wanted:
        return True
    if "--explain" in words and is_right_explained(wanted, got):
        return True
    if words[0] == "sim" and status in (0, 1) and b"no 6" in out.split(b"\n"):
        return True
    return tells_want(status, out, err) and wanted[1].startswith(out) and (not out or out.endswith(b"\n"))


def tried(words):
    """Tries all calls of a command; how many runs are wrong."""
    wanted = carried_out(words, "", COUNTED_CALLS=f"{room}/calls")
    if not is_right(words, wanted, wanted):
        sys.exit(f"{' '.join(words)} ends with status {wanted[0]} with all memory: {wanted[2][:200]}")
    with open(f"{room}/calls") as counted:
        calls = int(counted.read())
    ways = [(how, number) for how in ("REFUSED_CALL", "REFUSED_FROM") for number in range(1, calls + 1, STEP)]
    wrong = ended = 0
    with ThreadPoolExecutor(4 * JOBS if words[0] == "run" else JOBS) as pool:
        runs = pool.map(lambda way: carried_out(words, f"{way[0]}{way[1]}", **{way[0]: way[1]}), ways)
        for (how, number), got in zip(ways, runs):
            ended += got[0] != wanted[0]
            if not is_right(words, wanted, got):
                wrong += 1
                print(f"{how}={number}: status {got[0]}, record {got[3]}: {got[2][:200]}")
    print(f"{' '.join(words)}: {calls} calls for memory, {len(ways)} runs, of which {ended} end otherwise; wrong are {wrong}", flush=True)
    return wrong


sys.exit(sum([tried(command) for command in ([words] if words else short_ones())]) > 0)
PY
