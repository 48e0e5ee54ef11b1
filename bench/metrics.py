#!/usr/bin/env python3
"""Looks at the numbers that a panel serves: of a station in one process, and of an interlocking whose nodes run as processes of their own.
Each text is judged by `promtool check metrics` (of Debian's package `prometheus`) and by what has to be so of a station that works.

    python3 bench/metrics.py STATION [LAYOUT]

world      the links come up, a route is set, a refused command is counted by its number, one link is cut and closes by time, which is
           told to nobody; another host is refused, and no token is asked for
nodes      the same of an interlocking's process: unasked its operator's lines have no number, and asked they tell what the panel serves;
           rounds go on, memory is told; what a stranger sends is counted as from a stranger; a controller that is made anew, which falls
           silent by that, is a link that was lost; its record replays as the same, questions and answers in it
"""
import json
import pathlib
import re
import shutil
import socket
import subprocess
import sys
import tempfile
import time
import tomllib
import urllib.error
import urllib.request

sys.path.insert(0, str(pathlib.Path(__file__).resolve().parent))
from panel import Panel, PanelOfNodes, TOP  # noqa: E402

SAMPLE = re.compile(r'^(zendurai_\w+)(?:\{(\w+)="(\w+)"\})? (\d+)$')
FAULTS = []


def judge(what, holds):
    print(f"{'well' if holds else 'AMISS'}: {what}", flush=True)
    if not holds:
        FAULTS.append(what)


def numbers_in(text):
    """The samples of a text, by name and label."""
    found = {}
    for line in text.splitlines():
        if not line.startswith("#"):
            name, _, label, value = SAMPLE.match(line).groups()
            found[name.removeprefix("zendurai_"), label] = int(value)
    return found


def looked_at(panel):
    """The numbers that a panel serves now."""
    return numbers_in(panel.get("/metrics").decode())


def wait(what, panel, holds, seconds=40):
    """Waits until it holds of the numbers that are served, and answers them."""
    end = time.monotonic() + seconds
    while time.monotonic() < end:
        numbers = looked_at(panel)
        if holds(numbers):
            judge(what, True)
            return numbers
        time.sleep(0.2)
    judge(f"{what}: {numbers}", False)
    return numbers


def command(panel, line):
    token = json.loads(panel.get("/station"))["token"]
    origin = panel.address.rstrip("/")
    request = urllib.request.Request(f"{origin}/command", line.encode(), {"Origin": origin, "X-Token": token}, method="POST")
    with urllib.request.urlopen(request, timeout=5) as answer:
        assert answer.status == 202


def promtool(panel, where):
    """Whether Prometheus' own tool finds anything wrong."""
    if not shutil.which("promtool"):
        judge("promtool is there (apt-get install prometheus)", False)
        return
    said = subprocess.run(["promtool", "check", "metrics"], input=panel.get("/metrics"), capture_output=True)
    judge(f"promtool finds nothing in the numbers of {where} {(said.stdout + said.stderr).decode()}".rstrip(), said.returncode == 0 and not said.stdout + said.stderr)


def head_of(panel):
    with urllib.request.urlopen(f"{panel.address.rstrip('/')}/metrics", timeout=5) as answer:
        return answer.headers


def refused(panel):
    """The status for a page of another host."""
    request = urllib.request.Request(f"{panel.address.rstrip('/')}/metrics", headers={"Host": "evil.example"})
    try:
        urllib.request.urlopen(request, timeout=5)
    except urllib.error.HTTPError as error:
        return error.code
    return 200


def links_of(layout):
    with open(layout, "rb") as file:
        told = tomllib.load(file)
    return told, [it["name"] for kind in ("signal", "point", "detector") for it in told.get(kind, [])]


def set_route(panel, told, count=1):
    """Resumes and sets a route, as often as it takes."""
    route = told["route"][0]["name"]
    command(panel, "resume")
    time.sleep(0.5)
    command(panel, f"set {route}")
    return wait("a command that was accepted is counted", panel, lambda it: it["commands_total", "accepted"] >= 2, 30)


def closings(numbers):
    """The numbers of disconnection requests."""
    return {it: count for it, count in numbers.items() if it[0].startswith("closings")}


def world(program, layout):
    told, names = links_of(layout)
    with tempfile.TemporaryDirectory() as place:
        panel = Panel(program, layout, place)
        try:
            judge("the type of the text is that of Prometheus", head_of(panel)["Content-Type"] == "text/plain; version=0.0.4")
            judge("another host is refused", refused(panel) == 403)
            command(panel, "resume")
            wait("a command in the hold is counted by its refusal", panel, lambda it: it["commands_total", "refused_2"] == 1, 5)
            wait("all links come up", panel, lambda it: it["links_up", None] == len(names))
            set_route(panel, told)
            before = looked_at(panel)
            command(panel, f"cut {names[0]}")
            after = wait("a link that is cut closes by time", panel, lambda it: it["links_up", None] == len(names) - 1, 10)
            judge("that it closed so is told to nobody", closings(after) == closings(before) and after["closings_sent_total", "time"] == 0)
            judge("rounds go on", after["rounds_total", None] > before["rounds_total", None] + 50)
            judge("datagrams take memory", after["sent_memory_bytes", None] > before["sent_memory_bytes", None])
            promtool(panel, "a station in one process")
        finally:
            panel.end()
        judge("its record replays as the same", panel.replays()[0])


class RecordedNodes(PanelOfNodes):
    """Nodes of which the interlocking writes a record."""

    def start_node(self):
        self.told = self.record.with_name("node.record")
        words = [self.program, "node", self.layout, self.name, "--addresses", str(self.addresses), "--operator", f"127.0.0.1:{self.operator}", "--record", str(self.told)]
        self.node = subprocess.Popen(words, stdin=subprocess.DEVNULL, stderr=subprocess.DEVNULL)

    def replays_node(self):
        text = self.told.read_bytes()
        self.told.write_bytes(text[:text.rfind(b"\n") + 1])
        said = subprocess.run([self.program, "replay", self.layout, str(self.told), "--node", self.name], stdout=subprocess.PIPE, text=True)
        return said.returncode == 0 and said.stdout.strip() == "same"


def send_from(address, to, bytes):
    """Sends bytes from an address, or from any."""
    with socket.socket(socket.AF_INET, socket.SOCK_DGRAM) as out:
        if address:
            out.bind(address)
        out.sendto(bytes, to)


def lines_of(port, question, seconds=1.0):
    """What the node tells an operator of its own within some time, asked or unasked."""
    lines = b""
    with socket.create_connection(("127.0.0.1", port), timeout=5) as operator:
        time.sleep(0.3)
        if question:
            operator.sendall(question)
        operator.settimeout(seconds)
        try:
            while piece := operator.recv(65536):
                lines += piece
        except TimeoutError:
            pass
    return lines.decode().splitlines()


def nodes(program, layout):
    told, names = links_of(layout)
    with tempfile.TemporaryDirectory() as place:
        panel = RecordedNodes(program, layout, place)
        try:
            wait("all links come up", panel, lambda it: it.get(("links_up", None)) == len(names), 60)
            before = set_route(panel, told)
            with open(panel.addresses, "rb") as file:
                addresses = tomllib.load(file)
            own = addresses[panel.name].split(":")
            send_from(None, (own[0], int(own[1])), b"from a stranger")
            after = wait("what comes from a stranger is counted", panel, lambda it: it["strangers_total", None] == before["strangers_total", None] + 1, 15)
            judge("rounds go on", after["rounds_total", None] > before["rounds_total", None])
            judge("memory is told", 1 << 20 < after["memory_bytes", None] < 1 << 30)
            judge("datagrams are taken", after["datagrams_total", "taken"] > before["datagrams_total", "taken"] > 0)
            panel.say(f"restart {names[0]}")
            lost = wait("a controller that falls silent is a link that was lost", panel, lambda it: it["links_lost_total", None] == after["links_lost_total", None] + 1, 20)
            judge("that its link closed so is told to nobody", lost["closings_sent_total", "time"] == lost["closings_taken_total", "time"] == 0)
            promtool(panel, "an interlocking's process")
            record = panel.told.read_text()
            judge("nothing is told unasked", record.count("hears numbers\n") * 32 == record.count("\nwrites number ") > 0)
        finally:
            panel.end()
        judge("the interlocking's record replays as the same", panel.replays_node())
    with tempfile.TemporaryDirectory() as place:
        panel = RecordedNodes(program, layout, place)
        panel.process.terminate()
        panel.process.wait()
        try:
            time.sleep(0.5)
            judge("an operator who doesn't ask is told no number", not any(it.startswith("number") for it in lines_of(panel.operator, None)))
            asked = [it for it in lines_of(panel.operator, b"numbers\n") if it.startswith("number ")]
            judge("one who asks is told each number once", len(asked) == 45 == len({tuple(it.split()[1:3]) for it in asked}))
        finally:
            panel.end()


def main(program, layout=str(TOP / "examples" / "halden.toml")):
    world(program, layout)
    nodes(program, layout)
    print("all is well" if not FAULTS else f"{len(FAULTS)} amiss")
    sys.exit(1 if FAULTS else 0)


if __name__ == "__main__":
    if len(sys.argv) not in (2, 3):
        sys.exit(__doc__)
    main(*sys.argv[1:])
