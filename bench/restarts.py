#!/usr/bin/env python3
"""Makes each node of a station anew after every event of recorded runs, and looks at a picture after every event.

The runs are the sessions `proceed`, `lost_stop` and `passage` of crates/stored_runs/data: a route at proceed, its cancel with
the stop lost, a train. A session is played by the built program `station` up to an event, from the first request of a route on;
then the node is made anew; then the rest follows, and 80 times 100 ms of flow, in which the route is cancelled and another one
asked for. A node is made anew with clock and number 0, with its clock and number 0, and with its clock and the number behind
the last one that it was heard with; the interlocking also a second and a third time, 1500 ms apart. Every picture has to be
safe; commands are refused 2 in the hold alone; nothing is refused but datagrams that were never sent so (2) and points that
aren't driven so (4). Runs of flows (the junction, and stamps that wrap) are made anew after each round of 10 ms.

usage: python3 bench/restarts.py [EVERY] [STATION]. After every EVERYth event, 1 where none is told. STATION is the program;
otherwise crates/station/out/station, which `rt run` leaves there."""
import os, subprocess, sys, tempfile
from concurrent.futures import ThreadPoolExecutor

HERE = os.path.dirname(os.path.dirname(os.path.abspath(__file__)))
DATA = f"{HERE}/crates/stored_runs/data"
SMALL = ["IXL1", "S1", "S3", "S4", "P1", "D1"]
IDS = {"IXL1": 1, "S1": 2, "S3": 3, "S4": 4, "P1": 10, "D1": 20}
JUNCTION = ["JUNCTION", "S1", "S2", "S3", "S4", "S5", "S6", "S7", "P1", "P2", "P3", "P4", "P5", "D1", "D2"]
HOLD, AGAIN, STEPS = 6_000_000, 1_500_000, 80
COMMANDS = ("set", "cancel", "resume")


def elapsed(line):
    """By how many microseconds time goes on in a line."""
    words = line.split()
    return {"time": lambda: int(words[1]), "flow": lambda: int(words[1]) * 1000}.get(words[0], lambda: 0)()


def number_behind(lines, node):
    """The number behind the last one with which a node was heard; of the interlocking, by S1."""
    partner = IDS["S1"] if node == "IXL1" else 1
    for line in reversed(lines):
        if line.startswith("deliver "):
            data = bytes.fromhex(line.split()[2])
            to, by, number = (int.from_bytes(data[at : at + 4], "little") for at in (4, 8, 12))
            if (to, by) == (partner, IDS[node]):
                return number + 1
    return 0


class Play:
    """A text for `station sim`, with what each of its lines may answer."""

    def __init__(self, clocks):
        self.lines, self.time, self.clocks, self.made = [], 0, dict(clocks), 0

    def add(self, line):
        self.time += elapsed(line)
        holds = self.time - self.made < HOLD
        self.lines.append((line, holds if line.split()[0] in COMMANDS else None))

    def clock(self, node):
        return (self.clocks.get(node, 0) + self.time) // 1000

    def anew(self, node, clock, number):
        self.lines.append((f"restart {node} {clock} {number}", None))
        self.clocks[node] = clock * 1000 - self.time
        if node == self.station:
            self.made = self.time

    def picture(self):
        self.lines.append(("picture", None))


def play(case, place, node, how, times):
    """The text of a run in which a node is made anew behind so many lines, so many times."""
    run = Play({})
    run.station = case["nodes"][0]
    for line in case["lines"][:place]:
        run.add(line) if not line.startswith("restart ") else run.anew(*restart_of(line))
    latest = None

    def anew():
        clock = 0 if how == "zero" else run.clock(node)
        number = number_behind(case["lines"][:place], node) if how == "as it is" else 0
        run.anew(node, clock, number)
        run.picture()
        return run.time

    latest, left = anew(), times - 1
    pressed = ["resume", f"cancel {case['route']}", f"set {case['next']}", "flow 100"] * STEPS
    for line in case["lines"][place:] + pressed:
        run.add(line)
        run.picture()
        if left and run.time - latest >= AGAIN:
            latest, left = anew(), left - 1
    return run.lines


def restart_of(line):
    _, node, clock, number = line.split()
    return node, int(clock), int(number)


def judged(station, layout, lines):
    """Plays a text, and tells how often what happened; it fails where something is wrong."""
    with tempfile.NamedTemporaryFile("w", suffix=".events") as file:
        file.write("".join(line + "\n" for line, _ in lines))
        file.flush()
        ran = subprocess.run([station, "sim", layout, file.name], capture_output=True, text=True)
    if ran.returncode or ran.stderr:
        raise SystemExit(f"status {ran.returncode}: {ran.stderr}")
    answers, count = iter(ran.stdout.split("\n")), {"events": 0, "pictures": 0, "no 2": 0, "no 4": 0, "held back": 0, "open": 0}
    for line, holds in lines:
        answer = next(answers)
        if line == "picture":
            shown = [answer]
            while shown[-1] not in ("safe", "unsafe"):
                shown.append(next(answers))
            if shown[-1] != "safe":
                raise SystemExit("unsafe:\n" + "\n".join(shown))
            count["pictures"] += 1
            last = shown
            continue
        count["events"] += 1
        if holds is not None and (answer == "refused 2") != holds:
            raise SystemExit(f"{line} is answered {answer}")
        count["held back"] += answer == "refused 2"
        if answer in ("no 2", "no 4"):
            count[answer] += 1
        elif answer.split()[0] not in ("ok", "accepted", "refused"):
            raise SystemExit(f"{line} is answered {answer}")
    count["open"] += any(it.startswith("signal ") and it.split()[2] != "stop" for it in last)
    return count


def cases():
    """The runs: a name, a layout, its nodes, the lines, the route and the one that is asked for later."""
    small, junction = f"{HERE}/examples/small.toml", f"{HERE}/examples/junction.toml"
    for name in ("proceed", "lost_stop", "passage"):
        lines = [it.split(" = ")[0] for it in open(f"{DATA}/{name}.session").read().splitlines()]
        yield {"name": name, "layout": small, "nodes": SMALL, "lines": lines, "route": "R1", "next": "R2"}
    begun = ["flow 8000", "resume"]
    wrap = ["restart IXL1 4294959000 0", "restart S1 4294958796 7"]
    for name, before, layout, nodes, route, after, sections in (
        ("small, stamps that wrap", wrap, small, SMALL, "R1", "R2", ["GP", "G2"]),
        ("junction", [], junction, JUNCTION, "R2", "R4", ["GP1", "GP2", "GB2"]),
    ):
        shown = before + begun + [f"set {route}"] + ["flow 10"] * 70
        train = [it for name in sections for it in [f"occupy {name}"] + ["flow 10"] * 5 + [f"clear {name}"] + ["flow 10"] * 5]
        for kind, rest in (("proceed", []), ("cancel", [f"cancel {route}"] + ["flow 10"] * 10), ("passage", train)):
            yield {"name": f"{name}, {kind}", "layout": layout, "nodes": nodes, "lines": shown + rest, "route": route, "next": after}


def tried(station, case, node, every):
    """Makes a node of a run anew at every place, and tells how often what happened."""
    first = next(place for place, line in enumerate(case["lines"]) if line.startswith("set "))
    places = range(first, len(case["lines"]) + 1, every)
    hows = ("zero", "clock", "as it is") if "," not in case["name"] else ("zero", "clock")
    texts = [play(case, place, node, how, times) for place in places for how in hows for times in ((1, 3) if node == case["nodes"][0] else (1,))]
    total = {"runs": len(texts)}
    for text in texts:
        for key, value in judged(station, case["layout"], text).items():
            total[key] = total.get(key, 0) + value
    return total


def main():
    every = int(sys.argv[1]) if len(sys.argv) > 1 else 1
    station = sys.argv[2] if len(sys.argv) > 2 else f"{HERE}/crates/station/out/station"
    jobs = [(case, node) for case in cases() for node in case["nodes"]]
    with ThreadPoolExecutor(os.cpu_count()) as pool:
        for (case, node), total in zip(jobs, pool.map(lambda job: tried(station, *job, every), jobs)):
            told = ", ".join(f"{key} {value}" for key, value in total.items())
            print(f"{case['name']}, {node}: {told}", flush=True)


main()
