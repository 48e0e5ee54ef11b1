#!/usr/bin/env python3
"""Runs the small station over UDP on this machine, some of its nodes by the C examples over libzendurai.a and the others by `station node`,
behind a relay that loses, delays and repeats datagrams. Nodes are killed and started anew, routes are set and cancelled, trains pass. A
judge that knows the layout alone looks at the lamps and the point after each change. It prints what was seen, and ends with status 1 where
anything was unsafe, or no signal came to proceed.

    python3 bench/embed_station.py STATION FOLDER records [--keep FOLDER]    all nodes by `station node`, each with a record; embed_replay of
                                                                            FOLDER goes through each
    python3 bench/embed_station.py STATION FOLDER NODE[,NODE ..] [--seconds N]      these nodes in C, with losses and kills

FOLDER has the examples as bench/embed.sh compiles them: signal, point, detector, interlocking, embed_replay.
"""
import argparse
import collections
import heapq
import os
import pathlib
import random
import selectors
import shutil
import socket
import subprocess
import sys
import tempfile
import threading
import time

TOP = pathlib.Path(__file__).resolve().parent.parent
LAYOUT = TOP / "examples" / "small.toml"
FIELD = TOP / "examples" / "machines" / "field.py"
STATION = "IXL1"
IDS = {"S1": 2, "S3": 3, "S4": 4, "P1": 10, "D1": 20}
SECTIONS = ["GA", "GP", "G1", "G2"]
NODES = [STATION, *IDS]
# how long two lines of two processes may come in the other order
ORDER = 0.05


def reading():
    return time.clock_gettime(time.CLOCK_MONOTONIC)


class Relay:
    """Between the interlocking and each controller, over ports of its own. What comes at the port where a controller sees the interlocking
    goes on from the port where the interlocking sees the controller, and the other way round."""

    def __init__(self, base):
        self.base, self.lost, self.repeated, self.delay = base, 0, 0, 0
        self.count = collections.Counter()
        self.ways, selector = {}, selectors.DefaultSelector()
        for at, name in enumerate(IDS, 1):
            of_station, of_controller = self.open(self.seen_by(name)), self.open(self.port(name) + 100)
            self.ways[of_station] = of_controller, ("127.0.0.1", self.port(STATION))
            self.ways[of_controller] = of_station, ("127.0.0.1", self.port(name))
        for it in self.ways:
            selector.register(it, selectors.EVENT_READ)
        threading.Thread(target=self.run, args=(selector,), daemon=True).start()

    @staticmethod
    def open(port):
        it = socket.socket(socket.AF_INET, socket.SOCK_DGRAM)
        it.bind(("127.0.0.1", port))
        it.setblocking(False)
        return it

    def port(self, name):
        return self.base + NODES.index(name)

    def seen_by(self, name):
        """The port at which a controller sees the interlocking."""
        return self.port(name) + 50

    def run(self, selector):
        waiting, number = [], 0
        while True:
            soon = max(0, waiting[0][0] - reading()) if waiting else 1
            for key, _ in selector.select(soon):
                out, to = self.ways[key.fileobj]
                for bytes_ in self.received(key.fileobj):
                    for _ in range(2 if random.random() < self.repeated else 1):
                        if random.random() < self.lost:
                            self.count["lost"] += 1
                            continue
                        number += 1
                        heapq.heappush(waiting, (reading() + random.random() * self.delay, number, out, to, bytes_))
            while waiting and waiting[0][0] <= reading():
                _, _, out, to, bytes_ = heapq.heappop(waiting)
                self.count["carried"] += 1
                try:
                    out.sendto(bytes_, to)
                except OSError:
                    pass

    @staticmethod
    def received(it):
        while True:
            try:
                yield it.recv(2048)
            except OSError:
                return


class Judge:
    """What stands on the lamps and at the point, by the lines that processes told, and what was unsafe."""

    def __init__(self):
        self.shown = dict.fromkeys(("S1", "S3", "S4"), "stop")
        self.lies, self.driven = "left", None
        self.since, self.unsafe, self.proceeds, self.turns = None, [], collections.Counter(), 0
        self.lock = threading.Lock()

    def wrong(self):
        moves = self.driven is not None or self.lies == "none"
        shown = {name for name, aspect in self.shown.items() if aspect != "stop"}
        return "S4" in shown or {"S1", "S3"} <= shown or (shown and moves) or ("S3" in shown and self.lies != "left")

    def sees(self, change):
        """A change. What is unsafe for longer than lines of two processes need to come is noted."""
        with self.lock:
            change(self)
            now = reading()
            if not self.wrong():
                if self.since is not None and now - self.since > ORDER:
                    self.unsafe.append(f"for {now - self.since:.3f} s")
                self.since = None
            elif self.since is None:
                self.since = now
                print(f"  at first sight: {self.shown}, {self.lies}, driven {self.driven}", flush=True)

    def shows(self, name, aspect):
        def change(it):
            it.proceeds[name] += aspect != "stop" and it.shown[name] == "stop"
            it.shown[name] = aspect
        self.sees(change)

    def moves(self, lies=None, driven="as before"):
        def change(it):
            it.turns += lies in ("left", "right")
            it.lies = lies or it.lies
            it.driven = it.driven if driven == "as before" else driven
        self.sees(change)


class Node:
    """A node's process, in C or of `station`."""

    def __init__(self, run, name, in_c):
        self.run, self.name, self.in_c, self.process = run, name, in_c, None
        self.stands = dict.fromkeys(SECTIONS, "clear")

    def words(self):
        relay, name = self.run.relay, self.name
        own, partner = str(relay.port(name)), "127.0.0.1"
        if name == STATION and self.in_c:
            ends = [word for it in IDS for word in (it, partner, str(relay.port(it) + 100))]
            return [self.run.folder / "interlocking", LAYOUT, own, *ends]
        if name == STATION:
            return [self.run.station, "node", LAYOUT, name, "--addresses", self.run.addresses(name), *self.run.record(name)]
        if not self.in_c:
            return [sys.executable, FIELD, self.run.wrapped(name), LAYOUT, self.run.addresses(name), name]
        program = {"S": "signal", "P": "point", "D": "detector"}[name[0]]
        words = [self.run.folder / program, name, str(IDS[name]), STATION, "1", own, partner, str(relay.seen_by(name))]
        return words + (SECTIONS if name == "D1" else [])

    def start(self):
        lies = {"none": "neither"}.get(self.run.judge.lies, self.run.judge.lies)
        self.process = subprocess.Popen([str(it) for it in self.words()], stdin=subprocess.PIPE, stdout=subprocess.PIPE, text=True,
                                        stderr=self.run.errors, env={**os.environ, "LIES": lies})
        threading.Thread(target=self.listen, args=(self.process,), daemon=True).start()
        if self.name == "D1":
            for section, how in self.stands.items():
                if how == "occupied":
                    self.occupy(section, how)

    def kill(self):
        """Its equipment rests. A controller of `station` is killed and started anew by its field equipment."""
        if self.name != STATION and not self.in_c:
            self.say(f"restart {self.name}")
            return False
        self.process.kill()
        self.process.wait()
        if self.name in self.run.judge.shown:
            self.run.judge.shows(self.name, "stop")
        if self.name == "P1":
            self.run.judge.moves(driven=None)
        return True

    def say(self, line):
        try:
            self.process.stdin.write(line + "\n")
            self.process.stdin.flush()
        except OSError:
            pass

    def occupy(self, section, how):
        self.stands[section] = how
        if self.in_c:
            self.say(f"{SECTIONS.index(section)} {int(how == 'occupied')}")
        else:
            self.say(f"{'occupy' if how == 'occupied' else 'clear'} {section}")

    def listen(self, process):
        for line in process.stdout:
            if process is not self.process or process.poll() is not None:
                return
            self.hear(line.split())

    def hear(self, words):
        judge = self.run.judge
        if self.name == STATION:
            self.run.told(words)
        elif self.name in judge.shown:
            judge.shows(self.name, words[1])  # `S3 proceed`, or `12345 proceed`
        elif self.name == "P1" and "driven" in words:
            side = words[words.index("driven") + 1]
            judge.moves(driven=None if side == "neither" else side)
        elif self.name == "P1" and words[-1] == "undriven":
            judge.moves(driven=None)
        elif self.name == "P1":
            judge.moves(lies={"moves": "none", "neither": "none"}.get(words[-1], words[-1]))


class Run:
    def __init__(self, options, in_c, room):
        self.station, self.folder, self.room = options.station.resolve(), options.folder.resolve(), pathlib.Path(room)
        self.records = options.what == "records"
        self.keep = options.keep
        self.relay, self.judge = Relay(options.base), Judge()
        self.errors = open(self.room / "errors", "w")
        self.ready, self.waits, self.authority, self.heard = set(), threading.Event(), {}, collections.Counter()
        self.nodes = {name: Node(self, name, name in in_c) for name in NODES}
        for node in self.nodes.values():
            node.start()

    def addresses(self, name):
        """Where a node of `station` is, and where it sees the others."""
        file = self.room / f"{name}.addresses"
        ports = {it: self.relay.port(it) + 100 for it in IDS} | {STATION: self.relay.port(STATION)}
        if name != STATION:
            ports |= {name: self.relay.port(name), STATION: self.relay.seen_by(name)}
        file.write_text("".join(f'{it} = "127.0.0.1:{port}"\n' for it, port in ports.items()))
        return file

    def record(self, name):
        return ["--record", self.room / f"{name}.record"] if self.records else []

    def wrapped(self, name):
        """`station`, with a record where they are kept."""
        if not self.records:
            return self.station
        file = self.room / f"{name}.station"
        file.write_text(f'#!/bin/sh\nexec {self.station} "$@" --record {self.room}/{name}.record\n')
        file.chmod(0o755)
        return file

    def told(self, words):
        self.heard[" ".join(words[:1])] += 1
        if words[:1] == ["link"]:
            (self.ready.add if words[2] == "ready" else self.ready.discard)(words[1])
        if words == ["waiting", "for", "resume"]:
            self.nodes[STATION].say("resume")
        if words[:1] == ["signal"]:
            self.authority[words[1]] = words[3]

    def wait_for(self, holds, seconds):
        ends = reading() + seconds
        while reading() < ends and not holds():
            time.sleep(0.02)
        return holds()

    def train(self, route):
        """From the approach of a route over its sections, each freed behind it."""
        way = {"R1": ["GA", "GP", "G2"], "R2": ["GA", "GP", "G1"], "R3": ["G1", "GP", "GA"]}[route]
        for here, ahead in zip([None, *way], [*way, None]):
            if ahead:
                self.nodes["D1"].occupy(ahead, "occupied")
                time.sleep(0.4)
            if here:
                self.nodes["D1"].occupy(here, "clear")
                time.sleep(0.2)

    def route(self, name, with_train):
        """Whether a route was set, and its signal came to proceed."""
        signal = "S3" if name == "R3" else "S1"
        self.nodes[STATION].say(f"set {name}")
        shown = self.wait_for(lambda: self.judge.shown[signal] != "stop", 12)
        if shown and with_train:
            self.train(name)
        time.sleep(random.random())
        self.nodes[STATION].say(f"cancel {name}")
        return shown

    def operate(self):
        """Each command that operates a station through failures, with what is there and what isn't."""
        for line in ("close G2", "close P1 left", "close S1", "close R3", "close NONE", "set R1", "open S1", "move P1 right", "move NONE left",
                     "release R1", "release NONE", "open P1", "open G2", "open R3", "open NONE"):
            self.nodes[STATION].say(line)
            time.sleep(0.3)

    def weather(self, kind):
        self.relay.lost, self.relay.repeated, self.relay.delay = {"good": (0, 0, 0.01), "poor": (0.03, 0.05, 0.1), "bad": (0.25, 0.1, 0.5)}[kind]

    def storm(self):
        """A node is killed now and then."""
        while True:
            time.sleep(random.uniform(5, 30))
            node = self.nodes[random.choice(NODES)]
            self.heard[f"{node.name} was killed"] += 1
            if node.kill():
                time.sleep(random.choice([0, 0, 1, 3]))
                node.start()

    def stop(self):
        for node in self.nodes.values():
            if node.name != STATION and not node.in_c:
                node.say("stop")
                node.process.wait(10)
            node.process.kill()


def drive(run, seconds):
    ends, done = reading() + seconds, collections.Counter()
    threading.Thread(target=run.storm, daemon=True).start()
    while reading() < ends:
        run.weather(random.choice(["good", "good", "poor", "bad"]))
        name = random.choice(["R1", "R2", "R3"])
        shown = run.route(name, random.random() < 0.5)
        done[f"{name} {'shown' if shown else 'not shown'}"] += 1
    return done


def judged(run, done):
    judge, relay = run.judge, run.relay
    judge.sees(lambda it: None)
    print(f"{sum(judge.proceeds.values())} times proceed {dict(judge.proceeds)}, {judge.turns} turns of the point; {dict(done)}")
    print(f"the relay carried {relay.count['carried']} datagrams and lost {relay.count['lost']}; {dict(run.heard)}")
    print(f"unsafe: {judge.unsafe or 'never'}", flush=True)
    return bool(judge.unsafe) or not judge.proceeds


def replays(run):
    """Each record again, through the library."""
    wrong = 0
    for name in NODES:
        record = run.room / f"{name}.record"
        kind = {"S": "signal", "P": "point", "D": "detector", "I": "interlocking"}[name[0]]
        words = [LAYOUT] if name == STATION else [str(IDS[name]), "1", name, STATION, "1", *(SECTIONS if name == "D1" else [])]
        ran = subprocess.run([run.folder / "embed_replay", kind, record, *words], capture_output=True, text=True)
        print(f"{name}: {ran.stdout.strip()}{ran.stderr.strip()}", flush=True)
        wrong |= ran.returncode
        if run.keep:
            shutil.copy(record, run.keep)
    return wrong


def main():
    options = argparse.ArgumentParser(description=__doc__, formatter_class=argparse.RawDescriptionHelpFormatter)
    options.add_argument("station", type=pathlib.Path)
    options.add_argument("folder", type=pathlib.Path)
    options.add_argument("what", help="records, or the nodes in C")
    options.add_argument("--seconds", type=float, default=600)
    options.add_argument("--base", type=int, default=17100, help="the first of some 160 ports")
    options.add_argument("--seed", type=int, default=1)
    options.add_argument("--keep", type=pathlib.Path, help="a folder in which the records are left")
    options = options.parse_args()
    random.seed(options.seed)
    in_c = set() if options.what == "records" else set(options.what.split(","))
    with tempfile.TemporaryDirectory() as room:
        run = Run(options, in_c, room)
        if not run.wait_for(lambda: len(run.ready) == len(IDS), 60):
            sys.exit(f"no links: {run.ready}; {(run.room / 'errors').read_text()[:500]}")
        time.sleep(1)
        if run.records:
            done = collections.Counter(run.route(name, True) for name in ("R1", "R3", "R2"))
            run.operate()
        else:
            done = drive(run, options.seconds)
        wrong = judged(run, done)
        run.stop()
        if run.records:
            wrong |= replays(run)
    sys.exit(wrong)


if __name__ == "__main__":
    main()
