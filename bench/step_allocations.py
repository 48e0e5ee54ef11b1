#!/usr/bin/env python3
"""Counts the requests for memory that steps make: a recorded session is played by the built program `station` as it was, and so
changed that every event is refused and no node makes a step (what is read and written is as much). The difference may be no
more than the rows of the world's network need: two, each made once and doubled once. So a step makes no request, however many
there are. Needs a C compiler.

usage: python3 bench/step_allocations.py [STATION], otherwise crates/station/out/station, which `rt run` leaves there."""
import os, subprocess, sys, tempfile

BENCH = os.path.dirname(os.path.abspath(__file__))
DATA = f"{BENCH}/../crates/stored_runs/data"
STATION = sys.argv[1] if len(sys.argv) > 1 else f"{BENCH}/../crates/station/out/station"
SESSIONS = ("proceed", "lost_report", "lost_stop", "dead_link", "passage", "approach")
GROWTHS = 4


def refused(line):
    """A line that is refused at a station that has sent nothing: one for each line, with as many bytes."""
    word = line.split()[0]
    if word in ("deliver", "lose"):
        return line
    return "time 1 S1=900000" if word == "time" else "reach P1 right"


def played(lines, room):
    """The number of requests for memory, and how many events weren't refused by `no`."""
    with open(f"{room}/events", "w") as text:
        text.writelines(f"{line}\n" for line in lines)
    how = {**os.environ, "COUNTED_CALLS": f"{room}/calls", "LD_PRELOAD": f"{room}/refuse.so"}
    command = [STATION, "sim", f"{DATA}/small.toml", f"{room}/events"]
    answers = subprocess.run(command, env=how, check=True, capture_output=True, text=True).stdout.splitlines()
    with open(f"{room}/calls") as calls:
        return int(calls.read()), sum(not answer.startswith("no ") for answer in answers)


with tempfile.TemporaryDirectory() as room:
    source = f"{BENCH}/refuse_malloc.c"
    subprocess.run(["cc", "-shared", "-fPIC", "-O1", "-o", f"{room}/refuse.so", source, "-ldl"], check=True)
    for name in SESSIONS:
        with open(f"{DATA}/{name}.session") as session:
            lines = [line.split(" = ")[0] for line in session.read().splitlines()]
        with_steps, happened = played(lines, room)
        without, none = played([refused(line) for line in lines], room)
        print(f"{name}: {with_steps} requests where {happened} events happen, {without} where {none} do")
        if none or happened < len(lines) * 9 // 10 or with_steps - without > GROWTHS:
            sys.exit("a step asks for memory, or too little happens")
