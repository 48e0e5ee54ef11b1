#!/usr/bin/env python3
"""Starts all nodes of a station on this machine, sets a route, sends a train through it, and stops them.

    python3 start.py STATION LAYOUT ADDRESSES ROUTE
"""
import os
import pathlib
import subprocess
import sys
import threading
import time
import tomllib

FIELD = pathlib.Path(__file__).with_name("field.py")


class Told:
    """The lines that a process tells, each printed as it comes, and waited for."""

    def __init__(self, who, process):
        self.who, self.process, self.lines, self.came = who, process, [], threading.Condition()
        threading.Thread(target=self.listen, daemon=True).start()

    def listen(self):
        for line in self.process.stdout:
            with self.came:
                self.lines.append(line.strip())
                print(f"{self.who}: {line.strip()}", flush=True)
                self.came.notify_all()

    def say(self, line):
        print(f"{self.who} < {line}", flush=True)
        self.process.stdin.write(line + "\n")
        self.process.stdin.flush()

    def wait_for(self, *wanted, behind=0):
        """Waits until each of these lines was told, and answers how many were told then."""
        with self.came:
            if not self.came.wait_for(lambda: set(wanted) <= set(self.lines[behind:]), timeout=30):
                sys.exit(f"{self.who} didn't tell: {', '.join(set(wanted) - set(self.lines[behind:]))}")
            return len(self.lines)


def start(who, *words):
    return Told(who, subprocess.Popen(words, stdin=subprocess.PIPE, stdout=subprocess.PIPE, text=True))


def main(program, layout, addresses, name):
    with open(layout, "rb") as file:
        told = tomllib.load(file)
    route = next(it for it in told["route"] if it["name"] == name)
    aspect, signal = route.get("aspect", "proceed"), route["entry"]
    controllers = [it["name"] for kind in ("signal", "point", "detector") for it in told.get(kind, [])]

    field = start("field", sys.executable, str(FIELD), program, layout, addresses)
    station = start("station", program, "node", layout, told["station"]["name"], "--addresses", addresses)
    # The links come up, and the hold ends 6 s after the interlocking was made.
    station.wait_for("waiting for resume", *(f"link {it} ready" for it in controllers))
    station.say("resume")
    began = time.monotonic()
    station.say(f"set {name}")
    station.wait_for(f"signal {signal} {aspect} {name}", f"indicates {signal} {aspect}")
    field.wait_for(f"{signal} {aspect}")
    print(f"{signal} shows {aspect} {time.monotonic() - began:.2f} s behind the request", flush=True)

    # A train: it stands before the signal, passes it, and frees the route section by section.
    behind = len(station.lines)
    sections = route.get("approach", [])[-1:] + sections_of(told, route)
    for here, ahead in zip([None, *sections], [*sections, None]):
        if ahead:
            field.say(f"occupy {ahead}")
            station.wait_for(f"section {ahead} occupied", behind=behind)
        if here:
            field.say(f"clear {here}")
    station.wait_for(f"route {name} free", behind=behind)

    station.process.kill()
    field.say("stop")
    field.process.wait()


def sections_of(told, route):
    """The sections that a train passes on a route: that of each element on its path."""
    of = {it["name"]: it["section"] for kind in ("track", "point") for it in told.get(kind, [])}
    named = [of[port.split(".")[0]] for port in route["path"] if port.split(".")[0] in of]
    return list(dict.fromkeys(named))


if __name__ == "__main__":
    main(*sys.argv[1:])
