#!/usr/bin/env python3
"""Makes each node of a station anew after every event of every list of restarts of the program stored_runs:
the gate does so in the small station's lists alone, takes every 5th place where stamps wrap, and every 8th at the junction.
Behind an event that another node takes no run is made, for it would be the one before it. The station is looked at after each
single event from its beginning on. The lists are shared out to the processors, node by node.

usage: python3 bench/every_restart.py [EVERY]. At every EVERYth place, 1 where none is told. The program is the one that
`rt run` leaves in out/ of the crate."""
import os, subprocess, sys, tempfile
from concurrent.futures import ThreadPoolExecutor

CRATE = os.path.join(os.path.dirname(os.path.dirname(os.path.abspath(__file__))), "crates", "stored_runs")


def tried(files, node):
    """Makes one node anew in all runs of one list, and answers what the program tells of it."""
    with tempfile.TemporaryDirectory() as room:
        for name in os.listdir(f"{CRATE}/data"):
            if name != "runs":
                os.symlink(f"{CRATE}/data/{name}", f"{room}/{name}")
        with open(f"{room}/runs", "w") as runs:
            runs.write(f"restarts {files}: {node}\n")
        ran = subprocess.run([f"{CRATE}/out/stored_runs"], cwd=room, capture_output=True, text=True)
    if ran.returncode:
        raise SystemExit(f"{files}: {node}: status {ran.returncode}: {ran.stderr}")
    return ran.stdout.splitlines()[-1]


def main():
    every = int(sys.argv[1]) if len(sys.argv) > 1 else 1
    jobs = []
    with open(f"{CRATE}/data/runs") as runs:
        for line in runs.read().splitlines():
            kind, _, words = line.partition(" ")
            if kind != "restarts":
                continue
            files, nodes = words.split(": ")
            files = files.rsplit(" ", 1)[0]
            jobs += [(f"{files} {every}", node) for node in nodes.split()]
    with ThreadPoolExecutor(os.cpu_count()) as pool:
        for told in pool.map(lambda job: tried(*job), jobs):
            print(told, flush=True)


main()
