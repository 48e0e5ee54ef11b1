#!/usr/bin/env python3
"""Runs a station at every limit, each of its 81 nodes as a process of its own on this machine, with the field equipment of
examples/machines/field.py; and lets the small station rest for a million rounds over memory. It prints what was seen, and ends with
status 1 where a link was lost, a round wasn't kept, or memory grew.

    python3 bench/nodes_at_limits.py STATION TESTS [--layout FILE] [limits] [flood] [million]

limits   all 80 links come up, and for 30 s they stay up, and the interlocking keeps its rounds of 10 ms, as its record has them
flood    the same; then a controller is ended, and random bytes and copies of its datagrams come from its address, more and more of
         them: the other links stay up, and it is told up to which rate rounds are kept
million  the tests of `station_tests`, whose built program TESTS is, play the small station at rest with made clocks: 1,000,000 rounds
         take no more memory than 20,000
"""
import argparse
import itertools
import os
import pathlib
import random
import socket
import subprocess
import sys
import tempfile
import time
import tomllib

TOP = pathlib.Path(__file__).resolve().parent.parent
sys.path.insert(0, str(TOP / "examples" / "machines"))
from machines import Operator, is_request, memory, ticks  # noqa: E402

# processor time is told in so many parts of a second
PARTS = os.sysconf("SC_CLK_TCK")


def free_ports(count):
    sockets = [socket.socket(socket.AF_INET, socket.SOCK_DGRAM) for _ in range(count)]
    for it in sockets:
        it.bind(("127.0.0.1", 0))
    ports = [it.getsockname()[1] for it in sockets]
    for it in sockets:
        it.close()
    return ports


def now():
    return time.monotonic() * 1000


class Station:
    """All nodes of a station. One controller has equipment of its own, so that it can be ended alone."""

    def __init__(self, program, layout, folder):
        with open(layout, "rb") as file:
            told = tomllib.load(file)
        self.name, self.layout = told["station"]["name"], layout
        self.controllers = [it["name"] for kind in ("signal", "point", "detector") for it in told.get(kind, [])]
        self.alone, *others = self.controllers
        self.ports = dict(zip([self.name, *self.controllers], free_ports(1 + len(self.controllers))))
        self.addresses = pathlib.Path(folder, "addresses")
        self.addresses.write_text("".join(f'{name} = "127.0.0.1:{port}"\n' for name, port in self.ports.items()))
        self.record = pathlib.Path(folder, "record")
        words = [program, "node", layout, self.name, "--addresses", str(self.addresses), "--record", str(self.record), "--clock", str(int(now()))]
        self.operator = Operator("station", subprocess.Popen(words, stdin=subprocess.PIPE, stdout=subprocess.PIPE, stderr=subprocess.DEVNULL, text=True))
        self.fields = [self.field(program, names) for names in ([self.alone], others)]

    def field(self, program, names):
        words = [sys.executable, str(TOP / "examples/machines/field.py"), program, self.layout, str(self.addresses), *names]
        return subprocess.Popen(words, stdin=subprocess.PIPE, stdout=subprocess.DEVNULL, stderr=subprocess.DEVNULL, text=True)

    @property
    def pid(self):
        return self.operator.process.pid

    def lost(self):
        """What was told of lost links since all were ready."""
        return [it for it in self.operator.lines[self.behind:] if it.endswith(" lost")]

    def end_field(self, field):
        field.stdin.write("stop\n")
        field.stdin.flush()
        field.wait()

    def end(self):
        self.operator.process.kill()
        for field in self.fields:
            if field.poll() is None:
                self.end_field(field)

    def ready(self):
        begun = now()
        self.behind = self.operator.wait_for("waiting for resume", *(f"link {it} ready" for it in self.controllers))
        print(f"limits: {len(self.controllers)} links are ready {(now() - begun) / 1000:.1f} s behind the start", flush=True)

    def late_between(self, begins, ends):
        """How many readings came more than 20 ms behind the one before, how many there are, and the longest gap, in a time."""
        told = (it.split()[1] for it in self.record.read_text().splitlines() if it.startswith("at "))
        readings = [it for it in map(int, told) if begins <= it <= ends]
        between = [later - earlier for earlier, later in itertools.pairwise(readings)]
        return sum(it > 20 for it in between), len(readings), max(between)


def watched(station, seconds):
    """What was seen for some seconds: processor share, and which rounds weren't kept."""
    begins, before = now(), ticks(station.pid)
    time.sleep(seconds)
    ends, spent = now(), (ticks(station.pid) - before) / PARTS
    return spent / seconds, station.late_between(begins, ends)


def limits(station):
    station.ready()
    share, (late, readings, longest) = watched(station, 30)
    print(f"limits: the interlocking takes {share:.1%} of a processor and {memory(station.pid)} KB; of {readings} readings {late} came more than "
          f"20 ms behind the one before, the longest {longest} ms; {len(station.lost())} links were lost", flush=True)
    return not station.lost() and late * 100 <= readings


def copies_of(station):
    """What came from the controller that stands alone, but its requests."""
    told = (it.split() for it in station.record.read_text().splitlines() if it.startswith(f"from {station.alone} "))
    return [it for it in (bytes.fromhex(words[2]) for words in told) if not is_request(it)]


def send_noise(sender, to, copies, rate, seconds):
    """So many datagrams a second, half of them random bytes."""
    begun, sent = time.monotonic(), 0
    while (passed := time.monotonic() - begun) < seconds:
        while sent < passed * rate:
            sender.sendto(random.choice(copies) if sent % 2 else os.urandom(sent % 200), to)
            sent += 1
        time.sleep(0.001)
    return sent


def flood(station):
    station.ready()
    copies = copies_of(station)
    station.end_field(station.fields[0])
    station.operator.wait_for(f"link {station.alone} lost")
    sender = socket.socket(socket.AF_INET, socket.SOCK_DGRAM)
    sender.bind(("127.0.0.1", station.ports[station.alone]))
    kept = 0
    for rate in (500, 1000, 2000, 4000, 6000, 12000):
        begins, before = now(), ticks(station.pid)
        sent = send_noise(sender, ("127.0.0.1", station.ports[station.name]), copies, rate, 10)
        share, (late, readings, longest) = (ticks(station.pid) - before) / PARTS / 10, station.late_between(begins, now())
        others = [it for it in station.lost() if it.split()[1] != station.alone]
        print(f"flood: {sent / 10:.0f} datagrams a second: {share:.1%} of a processor; {late} of {readings} readings late, the longest gap {longest} ms; "
              f"{len(others)} other links were lost", flush=True)
        kept = rate if not others and late * 100 <= readings else kept
    print(f"flood: rounds are kept, and the other links stay up, at {kept} datagrams a second")
    return kept >= 2000


def million(program):
    """The processor time and the memory of the small station at rest."""
    taken = []
    for rounds in ("20000", "a_million"):
        words = [program, f"node_stories::links_stay_up_for_{rounds}_rounds_at_rest"]
        process = subprocess.Popen(words, stdout=subprocess.DEVNULL)
        _, status, used = os.wait4(process.pid, 0)
        taken.append(used.ru_maxrss)
        print(f"million: {rounds}: {used.ru_utime + used.ru_stime:.1f} s, {used.ru_maxrss} KB", flush=True)
        if status:
            return False
    few, many = taken
    # a process takes up to 300 KB more or less each time that it is started
    return many <= few + 512


def main():
    words = argparse.ArgumentParser(description=__doc__, formatter_class=argparse.RawDescriptionHelpFormatter)
    words.add_argument("station")
    words.add_argument("tests")
    words.add_argument("--layout", default=str(TOP / "crates/stored_runs/data/layouts/at_every_limit.toml"))
    words.add_argument("kinds", nargs="*", default=["limits", "flood", "million"])
    given = words.parse_args()
    well = True
    for kind in given.kinds:
        if kind == "million":
            well &= million(os.path.abspath(given.tests))
            continue
        with tempfile.TemporaryDirectory() as folder:
            station = Station(os.path.abspath(given.station), os.path.abspath(given.layout), folder)
            try:
                well &= globals()[kind](station)
            finally:
                station.end()
    sys.exit(not well)


if __name__ == "__main__":
    main()
