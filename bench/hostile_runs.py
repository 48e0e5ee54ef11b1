#!/usr/bin/env python3
"""Has stations go through hostile runs of many seeds, and is told safe after each event: the tests of `runs` in simulator_tests, of
which the gate takes the first seeds alone. The seeds are shared out to the processors.

usage: python3 bench/hostile_runs.py [EVENTS] [PROGRAM]. So many events in all, a hundred million where none is told, the same number
for each station. PROGRAM is the built program of the tests; otherwise the one that `rt test` leaves in out/ of the crate."""
import os
import subprocess
import sys
from concurrent.futures import ThreadPoolExecutor

from recovery import CRATE

TESTS = ["the_small_station_is_safe_in_hostile_runs", "the_junction_is_safe_in_hostile_runs", "slow_routes_are_safe_in_hostile_runs"]

# how many events a run has, as runs.rt has them, and how many runs one process goes through: each has to see enough of everything
EVENTS, SHARE = 8000, 600


def go_through(program, test, first):
    ran = subprocess.run([program, f"runs::{test}", str(first), str(SHARE)], capture_output=True, text=True)
    if ran.returncode:
        raise SystemExit(f"{test}, {SHARE} runs from seed {first}: status {ran.returncode}: {ran.stderr}")


def main():
    events = int(sys.argv[1]) if len(sys.argv) > 1 else 100_000_000
    program = os.path.abspath(sys.argv[2]) if len(sys.argv) > 2 else f"{CRATE}/out/simulator_tests_tests"
    shares = -(-events // (EVENTS * SHARE * len(TESTS)))
    with ThreadPoolExecutor(os.cpu_count()) as pool:
        for test in TESTS:
            list(pool.map(lambda share: go_through(program, test, 1 + share * SHARE), range(shares)))
            print(f"{test}: {shares * SHARE} runs of {EVENTS} events, safe after each", flush=True)


if __name__ == "__main__":
    main()
