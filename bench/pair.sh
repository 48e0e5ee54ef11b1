#!/usr/bin/env bash
# Measures `pair` on long runs: a million events, and ten times as many, as LLVM builds it; an event against writing and
# reading one PDU of 99 bytes; and hostile lists (bench/hostile.py) of 99,000 lines and of 311,000, of which it tells whether
# the longer one keeps its bound. usage: bench/pair.sh [ROUNDS]. The best of all rounds counts. The status is 1 where the bound is
# exceeded.
set -eu
rounds=${1:-3}
cd "$(dirname "$0")/../crates"
(cd rasta_pdu_speed && rt run -- both 1 3 >/dev/null 2>&1) # proves it where it isn't yet, and leaves out/rasta_pdu_speed
(cd pair && rt run >/dev/null 2>&1)                         # likewise out/pair
exec python3 - "$PWD/pair/out/pair" "$PWD/rasta_pdu_speed/out/rasta_pdu_speed" "$rounds" "$PWD/../bench/hostile.py" <<'PY'
import os, platform, resource, subprocess, sys, tempfile

pair, pdu, rounds, hostile = sys.argv[1], sys.argv[2], int(sys.argv[3]), sys.argv[4]
# A line `flow 600000` is 60000 rounds: a step of time and two ticks each, and a heartbeat of each end every 300 ms.
EVENTS_A_LINE = 60_000 * 3 + 2 * 2_000
LINES = 6
HOSTILE = 99_000, 311_000
MOST_TIMES = 4  # as long for three times the lines


def used():
    usage = resource.getrusage(resource.RUSAGE_CHILDREN)
    return usage.ru_utime + usage.ru_stime


def best(command, text=""):
    took = []
    for _ in range(rounds):
        with tempfile.TemporaryFile() as given:
            given.write(text.encode())
            given.seek(0)
            before = used()
            subprocess.run(command, check=True, stdin=given, stdout=subprocess.DEVNULL)
            took.append(used() - before)
    return min(took)


def run_of(lines):
    return "flow 6030\n" + "give C 04\nflow 600000\n" * lines + "picture\n"


names = (line.split(":", 1)[1].strip() for line in open("/proc/cpuinfo") if line.startswith("model name"))
print(f"{next(names, platform.machine())}, {os.cpu_count()} processors, load {os.getloadavg()[0]:.1f}, best of {rounds}")
short, long = best([pair], run_of(LINES)), best([pair], run_of(10 * LINES))
an_event = short / (LINES * EVENTS_A_LINE) * 1e9
a_pdu = best([pdu, "both", "1", "1000000"]) / 1e6 * 1e9
print(f"{LINES * EVENTS_A_LINE} events: {short:.2f} s, {an_event:.0f} ns an event")
print(f"ten times as many: {long:.2f} s, {long / short:.2f} times as long")
is_within = True
for kind in ("openings", "copies"):
    short, long = (best([pair], subprocess.run([hostile, "pair", kind, str(lines)], check=True, capture_output=True, text=True).stdout) for lines in HOSTILE)
    keeps = long <= MOST_TIMES * short
    is_within = is_within and keeps
    print(f"{kind}: {HOSTILE[0]} lines: {short:.2f} s; {HOSTILE[1]}: {long:.2f} s, {long / short:.1f} times as long, {'within' if keeps else 'beyond'} {MOST_TIMES}")
print(f"an event against writing and reading a PDU of 99 bytes ({a_pdu:.0f} ns): {an_event / a_pdu:.2f}")
sys.exit(not is_within)
PY
