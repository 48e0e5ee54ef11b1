#!/usr/bin/env python3
"""Kills the process of an interlocking again and again, between commands that close and open things, and looks at what the next one
closes. The interlocking stands alone: what is closed needs no controller.

An operator gives `close` and `open` of sections, points, signals and routes at random, one behind the other without waiting, and the
process is killed with `kill -9` at a random moment. The next process with the same file tells what is closed before it tells that it
holds. Judged is that each thing is closed whose `close` was answered `accepted`, unless an `open` of it was given after that; and that
each is open whose `open` was answered `accepted`, unless a `close` of it was given after that. It tells how often what happened, and ends
with status 1 at the first thing that is otherwise.

    python3 bench/kills.py [--layout FILE] [--rounds N] [--seed N] [--longest SECONDS] [--locks] PROGRAM [WORD ..]

PROGRAM with its words is what runs `station`: crates/station/out/station, which `rt run` leaves there; or `rt try --`, in
crates/station. It is killed with all that it started."""
import argparse
import contextlib
import itertools
import os
import pathlib
import random
import signal
import socket
import subprocess
import tempfile
import time
import tomllib

TOP = pathlib.Path(__file__).resolve().parent.parent
TRIES = 600


def things_of(layout):
    """What a command may close, and the things that are told of it."""
    told = tomllib.loads(layout.read_text())
    names = {name: [name] for name in told["section"]}
    for kind in ("signal", "route"):
        names |= {one["name"]: [one["name"]] for one in told[kind]}
    for point in told["point"]:
        sides = [f"{point['name']} left", f"{point['name']} right"]
        names |= {side: [side] for side in sides} | {point["name"]: sides}
    return names


def free_ports(kind, many):
    """So many ports, each of its own: all are held until the last was found."""
    with contextlib.ExitStack() as held:
        found = [held.enter_context(socket.socket(socket.AF_INET, kind)) for _ in range(many)]
        for free in found:
            free.bind(("127.0.0.1", 0))
        return [free.getsockname()[1] for free in found]


def nodes_of(layout):
    told = tomllib.loads(layout.read_text())
    return [told["station"]["name"]] + [one["name"] for kind in ("signal", "point", "detector") for one in told[kind]]


class Interlocking:
    """A process of the interlocking, and its operator."""

    def __init__(self, words, layout, folder, locks):
        nodes = nodes_of(layout)
        addresses = folder / "addresses"
        ports = free_ports(socket.SOCK_DGRAM, len(nodes))
        addresses.write_text("".join(f'"{node}" = "127.0.0.1:{port}"\n' for node, port in zip(nodes, ports)))
        self.port, = free_ports(socket.SOCK_STREAM, 1)
        self.errors = folder / "errors"
        asked = ["node", str(layout), nodes[0], "--addresses", str(addresses), "--operator", f"127.0.0.1:{self.port}"]
        asked += ["--closings", str(folder / "closings")] + (["--keep-locks"] if locks else [])
        with open(self.errors, "a") as errors:
            self.process = subprocess.Popen([*words, *asked], stdin=subprocess.DEVNULL, stdout=errors, stderr=errors, start_new_session=True)
        self.socket, self.rest = None, b""

    def join(self):
        """The operator joins, once the process serves."""
        for _ in range(TRIES):
            if self.process.poll() is not None:
                raise SystemExit(f"the process ended with status {self.process.returncode}: {self.errors.read_text()[-200:]}")
            try:
                self.socket = socket.create_connection(("127.0.0.1", self.port), timeout=60)
                return
            except ConnectionRefusedError:
                time.sleep(0.1)
        raise SystemExit("the process doesn't serve its operator")

    def lines(self, until):
        """The lines that come until one of them, or until the process has gone."""
        while True:
            while b"\n" in self.rest:
                line, self.rest = self.rest.split(b"\n", 1)
                yield line.decode()
                if line.decode() == until:
                    return
            try:
                more = self.socket.recv(65536)
            except (ConnectionResetError, TimeoutError):
                more = b""
            if not more:
                return
            self.rest += more

    def say(self, line):
        try:
            self.socket.sendall(line.encode() + b"\n")
            return True
        except (BrokenPipeError, ConnectionResetError):
            return False

    def kill(self):
        """The process is killed, with all that it started. What it had written may still be read."""
        os.killpg(self.process.pid, signal.SIGKILL)
        self.process.wait()


class Closings:
    """What may be so of each thing: that it is closed, that it is open, or either."""

    def __init__(self, names):
        self.names = names
        self.may = {thing: {True, False} for things in names.values() for thing in things}

    def command(self, word, name, answer):
        """What a command leaves: what it asks for where it was accepted, that or what was where it wasn't answered or not kept."""
        if answer == "refused":
            raise SystemExit(f"{word} {name} is refused")
        for thing in self.names[name]:
            self.may[thing] = {word == "close"} | (set() if answer == "accepted" else self.may[thing])

    def judge(self, told):
        """A new process closes these things, and from then on that is so."""
        wrong = [thing for thing, may in self.may.items() if (thing in told) not in may]
        if wrong:
            raise SystemExit(f"wrongly {'closed' if wrong[0] in told else 'open'}: {', '.join(wrong)}")
        self.may = {thing: {thing in told} for thing in self.may}


def told_closed(interlocking):
    """What a process that begins tells as closed, before it tells that it holds or waits."""
    closed = set()
    for line in interlocking.lines("holding"):
        if line.startswith("closed "):
            closed.add(line.removeprefix("closed "))
    return closed


def play(interlocking, closings, longest, count):
    """Commands are given until the process is killed at a random moment. They are answered in their order, as far as they are."""
    names, asked = list(closings.names), []
    end = time.monotonic() + random.uniform(0, longest)
    while time.monotonic() < end:
        word, name = random.choice(("close", "open")), random.choice(names)
        if not interlocking.say(f"{word} {name}"):
            break
        asked.append((word, name))
        time.sleep(random.choice((0, 0, 0.001, 0.01)))
    interlocking.kill()
    answers = [line.split()[0] for line in interlocking.lines(None) if line.split()[0] in ("accepted", "refused", "not")]
    for (word, name), answer in itertools.zip_longest(asked, answers, fillvalue="unanswered"):
        closings.command(word, name, answer)
        count[f"{word} {answer}"] = count.get(f"{word} {answer}", 0) + 1


def main():
    parser = argparse.ArgumentParser(description=__doc__, formatter_class=argparse.RawDescriptionHelpFormatter)
    parser.add_argument("--layout", type=pathlib.Path, default=TOP / "examples" / "small.toml")
    parser.add_argument("--rounds", type=int, default=200)
    parser.add_argument("--seed", type=int, default=1)
    parser.add_argument("--longest", type=float, default=0.3)
    parser.add_argument("--locks", action="store_true")
    parser.add_argument("program", nargs=argparse.REMAINDER)
    asked = parser.parse_args()
    random.seed(asked.seed)
    names, count = things_of(asked.layout), {}
    closings = Closings(names)
    with tempfile.TemporaryDirectory() as folder:
        folder = pathlib.Path(folder)
        for _ in range(asked.rounds + 1):
            interlocking = Interlocking(asked.program, asked.layout, folder, asked.locks)
            interlocking.join()
            closings.judge(told_closed(interlocking))
            play(interlocking, closings, asked.longest, count)
        told = (folder / "errors").read_text().count("closings lost")
    print(f"{asked.rounds} kills, {count}, the file was lost {told} times")
    if told != 1:
        raise SystemExit("a file is lost at the first process alone, which finds none")


if __name__ == "__main__":
    main()
