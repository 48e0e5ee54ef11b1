#!/usr/bin/env python3
"""Has stations recover from hostile lists of many seeds: the tests of `recovery` in simulator_tests, of which the gate takes the
first seeds alone. The seeds are shared out to the processors, and of each station one line tells what came of all its lists:
counts are added up, and of what takes time the slowest is kept, in rounds of 10 ms.

usage: python3 bench/recovery.py [LISTS] [PROGRAM]. So many lists in all, 10,000 where none is told, the same number for each
station. PROGRAM is the built program of the tests; otherwise the one that `rt test` leaves in out/ of the crate."""
import os, re, subprocess, sys
from concurrent.futures import ThreadPoolExecutor

CRATE = os.path.join(os.path.dirname(os.path.dirname(os.path.abspath(__file__))), "crates", "simulator_tests")

TESTS = ["the_small_station_recovers", "the_junction_recovers", "halden_recovers"]

# how many lists one process tries
SHARE = 200

# what takes time; all else is counted
SLOWEST = ("ready", "shown", "stop", "ended", "free")


def tried(program, test, first, lists):
    """What a test tells of lists, by name."""
    ran = subprocess.run([program, f"recovery::{test}", str(first), str(lists)], capture_output=True, text=True)
    if ran.returncode:
        raise SystemExit(f"{test}, seeds from {first}: status {ran.returncode}: {ran.stderr}")
    return {name: int(number) for name, number in re.findall(r"(\w+): (\d+)", ran.stdout)}


def main():
    lists = int(sys.argv[1]) if len(sys.argv) > 1 else 10_000
    program = os.path.abspath(sys.argv[2]) if len(sys.argv) > 2 else f"{CRATE}/out/simulator_tests_tests"
    each = -(-lists // len(TESTS))
    with ThreadPoolExecutor(os.cpu_count()) as pool:
        for test in TESTS:
            firsts = range(1, each + 1, SHARE)
            told = list(pool.map(lambda first: tried(program, test, first, min(SHARE, each + 1 - first)), firsts))
            joined = {name: (max if name in SLOWEST else sum)(it[name] for it in told) for name in told[0]}
            print(f"{test}:", ", ".join(f"{name} {number}" for name, number in joined.items()), flush=True)


if __name__ == "__main__":
    main()
