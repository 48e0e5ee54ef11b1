#!/usr/bin/env python3
"""Runs a station with each node in a network namespace of its own (iproute2, as root), behind a relay that loses, delays, repeats and
reorders datagrams, with the field equipment of examples/machines/field.py. A judge that knows the layout alone looks at the lamps and
points after each change. It prints what was seen, and ends with status 1 where anything was unsafe or didn't come.

    python3 bench/machines.py STATION [--layout FILE] [--route R] [quiet] [hostile] [strangers] [stopped] [flooded] [rest] [networks]

quiet      one datagram in a hundred is lost, the others come up to 100 ms late, in order: a route comes to proceed, a train passes, and
           when the relay stops each lamp falls
hostile    in turn for each node: over a quiet network the links come up and routes are set; then one in five is lost, one in ten repeated, all come up to 400 ms late in any order, and the node is killed and started anew
strangers  random bytes and copies of true datagrams: 100,000 to the interlocking from another address, as fast as they go; then 20,000
           to the interlocking and the controllers from the addresses of their partners, but no copies of requests for connections. The
           links stay up, rounds are kept, memory doesn't grow, and the record of the interlocking is the same once more
stopped    the signal of the route is stopped (SIGSTOP) at proceed for 1, 3 and 30 s, and the interlocking for 3 s. By the records of all
           nodes nothing is heard that was sent more than 500 ms before; the lamp falls, and the links come back
flooded    20,000 datagrams a second come to the signal of the route for 5 s, from the address of the interlocking. The same is judged
rest       the processor share and the memory of each node at rest
networks   once with one network and once with two, while routes are set and cancelled, for --seconds each: nothing is lost; 1 in 100 and 5 in
           100 is lost in each; the same while the second network is 49 ms slower. With two, each is cut in turn, with a train on its way, and
           20,000 datagrams a second come from the address of a partner over the first for 5 s: no link closes. It counts links that were lost
           and requests for retransmission; two networks at 5 in 100 close fewer than a tenth of what one does. Each cut is told, and its end
"""
import argparse
import collections
import heapq
import itertools
import os
import pathlib
import random
import selectors
import signal
import socket
import struct
import subprocess
import sys
import tempfile
import threading
import time
import tomllib

TOP = pathlib.Path(__file__).resolve().parent.parent
sys.path.insert(0, str(TOP / "examples" / "machines"))
from start import Told, sections_of, start  # noqa: E402

RELAY = "zendurai-relay"
RELAYS = (RELAY, "zendurai-relay-b")
PORT = 5000


def ip(*words):
    subprocess.run(["ip", *words], check=True, stdout=subprocess.DEVNULL)


class Machines:
    """A namespace for each node, each joined to the relay's, and an addresses file for each: partners are reached at the relay."""

    def __init__(self, program, layout, folder, records, networks=1):
        with open(layout, "rb") as file:
            self.told = tomllib.load(file)
        self.layout, self.folder, self.networks = layout, folder, networks
        self.station = self.told["station"]["name"]
        self.controllers = [it["name"] for kind in ("signal", "point", "detector") for it in self.told.get(kind, [])]
        self.names = [self.station, *self.controllers]
        for relay_space in RELAYS[:networks]:
            ip("netns", "add", relay_space)
        for at, name in enumerate(self.names):
            space = self.space(at)
            ip("netns", "add", space)
            for over, relay_space in enumerate(RELAYS[:networks]):
                ip("link", "add", f"r{at}", "netns", relay_space, "type", "veth", "peer", "name", f"n{over}", "netns", space)
                for where, link, end in ((relay_space, f"r{at}", 1), (space, f"n{over}", 2)):
                    ip("-n", where, "address", "add", f"10.{77 + over}.{at}.{end}/24", "dev", link)
                    ip("-n", where, "link", "set", link, "up")
            ip("-n", space, "link", "set", "lo", "up")
            lines = [f"{other} = {self.addresses(at, number)}" for number, other in enumerate(self.names)]
            pathlib.Path(folder, f"{name}.addresses").write_text("\n".join(lines) + "\n")
        # stands for the program: runs a node in its namespace, with its own addresses
        self.wrapper = pathlib.Path(folder, "station")
        cases = "".join(f"{name}) space={self.space(at)};;\n" for at, name in enumerate(self.names))
        # each process has a record of its own
        kept = f"--record {folder}/$name.$$.record " if records else ""
        self.wrapper.write_text(f'#!/bin/sh\nlayout=$2 name=$3\nshift 5\ncase $name in\n{cases}esac\n'
                                f'exec ip netns exec $space {program} node $layout $name --addresses {folder}/$name.addresses {kept}"$@"\n')
        self.wrapper.chmod(0o755)

    @staticmethod
    def space(at):
        return f"zendurai-{at}"

    def addresses(self, at, number):
        """The addresses at which a node sees another, or has itself, as they stand in its addresses file."""
        seen = [f'"10.{77 + over}.{at}.2:{PORT}"' if number == at else f'"10.{77 + over}.{at}.1:{PORT + number}"' for over in range(self.networks)]
        return seen[0] if len(seen) == 1 else f"[{', '.join(seen)}]"

    def remove(self):
        for space in [*RELAYS[: self.networks], *(self.space(at) for at in range(len(self.names)))]:
            subprocess.run(["ip", "netns", "delete", space], stderr=subprocess.DEVNULL)


def is_request(bytes_):
    """Whether a datagram asks for a connection, or for its end."""
    return bytes_[2:4] in (struct.pack("<H", 6200), struct.pack("<H", 6216))


def noise(number, true):
    """Random bytes, or a copy of a true datagram that is no request."""
    copies = [it for it in true if not is_request(it)]
    return random.choice(copies) if number % 2 and copies else os.urandom(number % 200)


def relay(nodes, over):
    """The process of a network's relay: a socket for each way between the interlocking and a controller. A line of standard input sets how
    it treats datagrams: `LOST REPEATED DELAY ORDERED LEAST`, the first two in a hundred, the delay in milliseconds at most and at least. A line `flood COUNT` lets it
    send so many that are noise, from the addresses of partners, 2 in a millisecond; it tells `flooded` behind the last."""
    heard, sockets = selectors.DefaultSelector(), {}
    for at in range(1, nodes):
        for one, other in ((0, at), (at, 0)):
            it = socket.socket(socket.AF_INET, socket.SOCK_DGRAM)
            it.bind((f"10.{77 + over}.{one}.1", PORT + other))
            it.setblocking(False)
            sockets[one, other] = it
            heard.register(it, selectors.EVENT_READ, (one, other))
    os.set_blocking(0, False)
    heard.register(0, selectors.EVENT_READ, None)
    lost, repeated, delay, ordered, least, due, number, last = 100, 0, 0, 1, 0, [], itertools.count(), collections.Counter()
    flood, ways, true = 0, itertools.cycle(list(sockets)), collections.defaultdict(lambda: collections.deque(maxlen=500))
    print("ready", flush=True)
    while True:
        wait = 0.001 if flood else max(0, due[0][0] - time.monotonic()) if due else 1
        for key, _ in heard.select(wait):
            if key.data is None:
                said = os.read(0, 1000).split(b"\n")
                if said == [b""]:
                    return
                for line in said[:-1]:
                    what = line.split()
                    if what[0] == b"flood":
                        flood = int(what[1])
                    else:
                        lost, repeated, delay, ordered, least = (int(it) for it in what)
                continue
            one, other = key.data
            bytes_ = key.fileobj.recv(2000)
            true[one, other].append(bytes_)
            if random.random() * 100 < lost:
                continue
            for _ in range(2 if random.random() * 100 < repeated else 1):
                when = time.monotonic() + (least + random.random() * (delay - least)) / 1000
                if ordered:
                    when = last[one, other] = max(when, last[one, other])
                heapq.heappush(due, (when, next(number), one, other, bytes_))
        while due and due[0][0] <= time.monotonic():
            _, _, one, other, bytes_ = heapq.heappop(due)
            sockets[other, one].sendto(bytes_, (f"10.{77 + over}.{other}.2", PORT))
        for _ in range(min(flood, 2)):
            one, other = next(ways)
            sockets[other, one].sendto(noise(flood, true[one, other]), (f"10.{77 + over}.{other}.2", PORT))
            flood -= 1
            if not flood:
                print("flooded", flush=True)


class Judge:
    """Knows the layout alone. For each lit signal some route of its aspect has its points right and undriven, and no two conflict."""

    def __init__(self, told, conflicts):
        self.routes, self.conflicts = told["route"], conflicts
        self.shows, self.driven, self.unsafe, self.looks = {}, set(), [], 0
        self.lies = {it["name"]: "left" for it in told.get("point", [])}
        self.came = threading.Condition()

    def hear(self, line):
        name, *what = line.split()
        if name in self.lies:
            if what[0] == "driven":
                self.driven.add(name)
            elif what[0] == "undriven":
                self.driven.discard(name)
            else:
                self.lies[name] = what[0]
        elif what[0] in ("stop", "proceed", "slow"):
            self.shows[name] = what[0]
        self.look(line)

    def candidates(self, signal, aspect):
        for route in self.routes:
            needs = {**route.get("points", {}), **route.get("flank", {})}
            if route["entry"] == signal and route.get("aspect", "proceed") == aspect and all(self.lies[it] == side and it not in self.driven for it, side in needs.items()):
                yield route["name"]

    def look(self, line):
        self.looks += 1
        lit = [list(self.candidates(signal, aspect)) for signal, aspect in self.shows.items() if aspect != "stop"]
        fits = any(not any(frozenset(pair) in self.conflicts for pair in itertools.combinations(chosen, 2)) for chosen in itertools.product(*lit))
        if not fits:
            self.unsafe.append((line, dict(self.shows), dict(self.lies), set(self.driven)))
            print("UNSAFE", self.unsafe[-1], flush=True)

    def lit(self):
        return [signal for signal, aspect in self.shows.items() if aspect != "stop"]


def conflicts_of(program, layout):
    said = subprocess.run([program, "check", layout], check=True, stdout=subprocess.PIPE, text=True).stdout
    return {frozenset(it.split()[1:]) for it in said.splitlines() if it.startswith("conflict ")}


class Field(Told):
    """The field program, of which each line goes to the judge."""

    def __init__(self, judge, process):
        self.judge = judge
        super().__init__("field", process)

    def listen(self):
        for line in self.process.stdout:
            with self.came:
                self.lines.append(line.strip())
                self.judge.hear(line.strip())
                self.came.notify_all()


class Operator(Told):
    def listen(self):
        for line in self.process.stdout:
            with self.came:
                self.lines.append(line.strip())
                self.came.notify_all()

    def say(self, line):
        try:
            self.process.stdin.write(line + "\n")
            self.process.stdin.flush()
        except OSError:
            pass


class Run:
    def __init__(self, program, machines):
        self.machines, self.program = machines, program
        self.judge = Judge(machines.told, conflicts_of(program, machines.layout))
        self.relays = []
        for over, space in enumerate(RELAYS[: machines.networks]):
            words = ["ip", "netns", "exec", space, sys.executable, os.path.abspath(__file__), "relay", str(len(machines.names)), str(over)]
            self.relays.append(Told("relay", subprocess.Popen(words, stdin=subprocess.PIPE, stdout=subprocess.PIPE, text=True)))
            self.relays[-1].wait_for("ready")
        self.relay = self.relays[0]
        field = [sys.executable, str(TOP / "examples/machines/field.py"), str(machines.wrapper), machines.layout, "-"]
        self.field = Field(self.judge, subprocess.Popen(field, stdin=subprocess.PIPE, stdout=subprocess.PIPE, text=True))
        self.begin()

    def begin(self, *more):
        """Starts the interlocking, with more words."""
        words = [str(self.machines.wrapper), "node", self.machines.layout, self.machines.station, "--addresses", "-", "--clock", str(int(time.monotonic() * 1000)), *more]
        self.station = Operator("station", subprocess.Popen(words, stdin=subprocess.PIPE, stdout=subprocess.PIPE, text=True))

    def treat(self, lost, repeated, delay, ordered, least=0, over=None):
        """How each network treats datagrams, or one of them."""
        for it in self.relays if over is None else self.relays[over : over + 1]:
            it.process.stdin.write(f"{lost} {repeated} {delay} {int(ordered)} {least}\n")
            it.process.stdin.flush()

    def flood(self, count):
        """So much noise in the names of partners."""
        behind = len(self.relay.lines)
        self.relay.process.stdin.write(f"flood {count}\n")
        self.relay.process.stdin.flush()
        self.relay.wait_for("flooded", behind=behind)
        time.sleep(2)

    def end(self):
        self.station.process.kill()
        self.field.process.stdin.write("stop\n")
        self.field.process.stdin.flush()
        self.field.process.wait()
        for it in self.relays:
            it.process.stdin.close()

    def ready(self):
        self.station.wait_for("waiting for resume", *(f"link {it} ready" for it in self.machines.controllers))
        self.station.say("resume")

    def proceed(self, route):
        began, behind = time.monotonic(), len(self.station.lines)
        self.station.say(f"set {route['name']}")
        aspect = route.get("aspect", "proceed")
        self.station.wait_for(f"indicates {route['entry']} {aspect}", behind=behind)
        self.field.wait_for(f"{route['entry']} {aspect}")
        return time.monotonic() - began


def quiet(run, route):
    run.treat(1, 0, 100, True)
    run.ready()
    print(f"quiet: {route['entry']} shows proceed {run.proceed(route):.2f} s behind the request")
    behind = len(run.station.lines)
    sections = route.get("approach", [])[-1:] + sections_of(run.machines.told, route)
    for here, ahead in zip([None, *sections], [*sections, None]):
        if ahead:
            run.field.say(f"occupy {ahead}")
            run.station.wait_for(f"section {ahead} occupied", behind=behind)
        if here:
            run.field.say(f"clear {here}")
    run.station.wait_for(f"route {route['name']} free", behind=behind)
    print("quiet: a train passed, and its route is free")
    run.proceed(route)
    cut = time.monotonic()
    run.treat(100, 0, 0, True)
    while run.judge.lit():
        time.sleep(0.001)
    print(f"quiet: every lamp is at stop {time.monotonic() - cut:.3f} s after the relay stopped")
    # the last stamp that came back may be older than the cut by the delay, but no lamp shines longer than this
    return time.monotonic() - cut <= 1.8


def demand(run, route):
    """The operator ends a hold, and requests a route."""
    run.station.say("resume")
    run.station.say(f"set {route['name']}")
    time.sleep(0.5)


def hostile(run, route):
    proceeds, routes = collections.Counter(), itertools.cycle(run.machines.told["route"])
    for name in [*run.machines.controllers, run.machines.station]:
        begun, seen = time.monotonic(), len(run.field.lines)
        # a signal comes to proceed over a quiet network, since where one in five is lost no link comes up, and by a new interlocking,
        # since routes of the one before are held for 120 s
        run.treat(0, 0, 0, True)
        run.station.process.kill()
        run.begin()
        while not run.judge.lit() and time.monotonic() < begun + 40:
            demand(run, next(routes))
        run.treat(20, 10, 400, False)
        begun = time.monotonic()
        while time.monotonic() < begun + 1:
            demand(run, next(routes))
        if name == run.machines.station:
            run.station.process.kill()
            run.begin()
        else:
            run.field.say(f"restart {name}")
        while time.monotonic() < begun + 12:
            demand(run, next(routes))
        run.station.say("cancel all")
        proceeds[name] = sum(it.split()[-1] in ("proceed", "slow") for it in run.field.lines[seen:])
    print("hostile: how often a signal came to show proceed or slow, by the node that was killed:", dict(proceeds))
    return sum(proceeds.values()) > 0


def strangers(run, route):
    run.treat(0, 0, 0, True)
    record = str(pathlib.Path(run.machines.folder, "record"))
    run.station.process.kill()
    run.station.process.wait()
    run.begin("--record", record)
    run.ready()
    lost = sum(it.endswith(" lost") for it in run.station.lines)
    true = [bytes.fromhex(it.split()[2]) for it in pathlib.Path(record).read_text().splitlines() if it.startswith("sends ")]
    flood = f"""
import os, socket
s, true = socket.socket(socket.AF_INET, socket.SOCK_DGRAM), {true[:500]}
for number in range(100000):
    s.sendto(true[number % len(true)] if number % 2 else os.urandom(number % 200), ("10.77.0.2", {PORT}))
"""
    before = asked_of_nodes(run)
    subprocess.run(["ip", "netns", "exec", RELAY, sys.executable, "-c", flood], check=True)
    time.sleep(3)
    after_strangers = sum(it.endswith(" lost") for it in run.station.lines) - lost
    print(f"strangers: {after_strangers} links were lost by 100,000 datagrams from another address", flush=True)
    run.flood(20000)
    more = sum(it.endswith(" lost") for it in run.station.lines) - lost
    grown = {name: after - before[name] for name, after in asked_of_nodes(run).items()}
    print(f"strangers: {more - after_strangers} links were lost by 20,000 from the addresses of partners; the nodes asked for {sum(grown.values())} KB more")
    late, readings, longest = gaps(record)
    print(f"strangers: of {readings} readings of the interlocking {late} came more than 20 ms behind the one before, the longest {longest} ms")
    same = is_same(run, record)
    return more == 0 and same and late * 100 <= readings and not any(grown.values())


def lines_of(record):
    """The whole lines of a record."""
    text = record.read_text()
    return text[: text.rfind("\n")].split("\n")


def sendings(records):
    """When which bytes were sent to which node, by the records of one."""
    sent = collections.defaultdict(list)
    for record in records:
        latest = 0
        for line in lines_of(record):
            kind, *more = line.split(" ")
            if kind == "at":
                latest = int(more[0])
            elif kind == "sends":
                sent[more[0], more[1]].append(latest)
    return sent


def hearings(record):
    """What a process heard, each with the node that sent it and the reading behind it. What was thrown away isn't heard."""
    lines = lines_of(record)
    for place, line in enumerate(lines):
        kind, *more = line.split(" ")
        behind = lines[place + 1 : place + 3]
        if kind == "from" and len(behind) == 2 and not behind[1].startswith("throws away "):
            yield more[0], more[-1], int(behind[0].split(" ")[1])


def oldest_heard(run, what):
    """How old a datagram of a partner was at most when it was heard, in milliseconds by the one clock of this machine."""
    records = {name: sorted(pathlib.Path(run.machines.folder).glob(f"{name}.*.record")) for name in run.machines.names}
    sent = {name: sendings(all_of_it) for name, all_of_it in records.items()}
    ages, thrown = [], 0
    for name, all_of_it in records.items():
        for record in all_of_it:
            thrown += sum(it.startswith("throws away ") for it in lines_of(record))
            for partner, bytes_, reading in hearings(record):
                before = [it for it in sent.get(partner, {}).get((name, bytes_), []) if it <= reading]
                if before:
                    ages.append(reading - max(before))
    print(f"{what}: {len(ages)} datagrams of partners were heard, the oldest {max(ages)} ms after its sending; {thrown} times what waited was thrown away", flush=True)
    return max(ages), thrown


def begin_anew(run):
    """A new interlocking, since routes of the one before are held for long."""
    run.station.process.kill()
    run.station.process.wait()
    run.begin()
    run.ready()


def is_back(run, behind):
    """Whether each link that was lost is ready again in 40 s, where at least one was lost."""
    until = time.monotonic() + 40
    while time.monotonic() < until:
        last = {it.split()[1]: it.split()[2] for it in run.station.lines[behind:] if it.startswith("link ")}
        if last and all(it == "ready" for it in last.values()):
            return True
        time.sleep(0.1)
    return False


def hold(run, name, seconds):
    """Stops the process of a node for some time. It tells how long a lamp shone behind that, or None where one still shines."""
    pid = int(nodes_of(run)[name])
    stopped, dark = time.monotonic(), None
    os.kill(pid, signal.SIGSTOP)
    while time.monotonic() < stopped + seconds:
        if dark is None and not run.judge.lit():
            dark = time.monotonic() - stopped
        time.sleep(0.001)
    os.kill(pid, signal.SIGCONT)
    return dark


def stopped(run, route):
    run.treat(0, 0, 0, True)
    well = True
    for name, seconds in ((route["entry"], 1), (route["entry"], 3), (route["entry"], 30), (run.machines.station, 3)):
        begin_anew(run)
        run.proceed(route)
        behind = len(run.station.lines)
        dark = hold(run, name, seconds)
        # a stop of 1 s is shorter than a link lives without a word
        back = is_back(run, behind) if seconds > 1 else True
        lamps = "a lamp still shone" if dark is None else f"every lamp was at stop after {dark:.2f} s"
        print(f"stopped: {name} for {seconds} s; {lamps}; the links {'came' if back else 'did NOT come'} back", flush=True)
        well &= back and (seconds == 1 or (dark is not None and dark <= 1.9))
    time.sleep(2)
    oldest, thrown = oldest_heard(run, "stopped")
    return well and oldest <= 500 and thrown > 0


def flooded(run, route):
    run.treat(0, 0, 0, True)
    begin_anew(run)
    run.proceed(route)
    at, behind = run.machines.names.index(route["entry"]), len(run.station.lines)
    flood = f"""
import os, socket, struct, time
s = socket.socket(socket.AF_INET, socket.SOCK_RAW, socket.IPPROTO_RAW)
one, other = "10.77.{at}.1", "10.77.{at}.2"
begun, sent = time.monotonic(), 0
while time.monotonic() < begun + 5:
    while sent < (time.monotonic() - begun) * 20000:
        udp = struct.pack(">HHHH", {PORT}, {PORT}, 48, 0) + os.urandom(40)
        ip = struct.pack(">BBHHHBBH4s4s", 0x45, 0, 68, 0, 0, 64, 17, 0, socket.inet_aton(one), socket.inet_aton(other))
        s.sendto(ip + udp, (other, 0))
        sent += 1
    time.sleep(0.0005)
print(sent)
"""
    sent = subprocess.run(["ip", "netns", "exec", RELAY, sys.executable, "-c", flood], check=True, stdout=subprocess.PIPE, text=True).stdout
    time.sleep(5)
    lost = sum(it.endswith(" lost") for it in run.station.lines[behind:])
    back = is_back(run, behind) if lost else True
    print(f"flooded: by {int(sent)} datagrams in 5 s {lost} links were lost, and they {'came' if back else 'did NOT come'} back", flush=True)
    oldest, thrown = oldest_heard(run, "flooded")
    return back and oldest <= 500 and thrown > 0


# what came of each round, by the number of networks and the round
SEEN = {}


def asked_again(run):
    """How many requests for retransmission the nodes have sent, by their records."""
    request = struct.pack("<H", 6212).hex()
    records = pathlib.Path(run.machines.folder).glob("*.record")
    return sum(it.startswith("sends ") and it.split(" ")[2][4:8] == request for record in records for it in lines_of(record))


def during(run, what, seconds, also=lambda: None):
    """Routes are set and cancelled for some time. It counts the links that were lost and the requests for retransmission."""
    behind, asked, routes, until = len(run.station.lines), asked_again(run), itertools.cycle(run.machines.told["route"]), time.monotonic() + seconds
    also()
    while time.monotonic() < until:
        demand(run, next(routes))
        time.sleep(1)
        run.station.say("cancel all")
    lost = sum(it.startswith("link ") and it.endswith(" lost") for it in run.station.lines[behind:])
    SEEN[run.machines.networks, what] = lost, asked_again(run) - asked
    print(f"networks: {run.machines.networks}, {what}: {lost} links were lost, {SEEN[run.machines.networks, what][1]} requests for retransmission", flush=True)
    return lost


def settle(run):
    run.treat(0, 0, 1, True)
    begin_anew(run)


def train(run, route):
    """A train passes over a route."""
    sections = route.get("approach", [])[-1:] + sections_of(run.machines.told, route)
    for here, ahead in zip([None, *sections], [*sections, None]):
        for what, section in (("occupy", ahead), ("clear", here)):
            if section:
                run.field.say(f"{what} {section}")
                time.sleep(1)


def flood_over_the_first(route, run):
    at = run.machines.names.index(route["entry"])
    flood = f"""
import os, socket, struct, time
s = socket.socket(socket.AF_INET, socket.SOCK_RAW, socket.IPPROTO_RAW)
begun, sent = time.monotonic(), 0
while time.monotonic() < begun + 5:
    while sent < (time.monotonic() - begun) * 20000:
        udp = struct.pack(">HHHH", {PORT}, {PORT}, 48, 0) + os.urandom(40)
        ip = struct.pack(">BBHHHBBH4s4s", 0x45, 0, 68, 0, 0, 64, 17, 0, socket.inet_aton("10.77.{at}.1"), socket.inet_aton("10.77.{at}.2"))
        s.sendto(ip + udp, ("10.77.{at}.2", 0))
        sent += 1
    time.sleep(0.0005)
"""
    subprocess.Popen(["ip", "netns", "exec", RELAY, sys.executable, "-c", flood])


def networks(run, route):
    two, seconds = run.machines.networks == 2, run.seconds
    run.treat(0, 0, 1, True)
    run.ready()
    during(run, "nothing is lost", seconds)
    for lost in (1, 5):
        settle(run)
        run.treat(lost, 0, 1, True)
        during(run, f"{lost} in 100 is lost", seconds)
    if not two:
        return True
    settle(run)
    run.treat(5, 0, 1, True)
    run.treat(5, 0, 50, True, least=49, over=1)
    during(run, "5 in 100 is lost, and the second is 49 ms slower", seconds)
    well = True
    for over, letter in enumerate("AB"):
        settle(run)
        run.proceed(route)
        behind, cut = len(run.station.lines), time.monotonic()
        run.treat(100, 0, 0, True, over=over)
        run.station.wait_for(*(f"network {letter} lost {it}" for it in run.machines.controllers), behind=behind)
        print(f"networks: {time.monotonic() - cut:.1f} s behind its cut network {letter} is told as lost at each controller", flush=True)
        train(run, route)
        well &= during(run, f"network {letter} is cut", seconds) == 0
        run.treat(0, 0, 1, True, over=over)
        run.station.wait_for(*(f"network {letter} back {it}" for it in run.machines.controllers), behind=behind)
    settle(run)
    well &= during(run, "20,000 datagrams a second come over the first", 15, lambda: flood_over_the_first(route, run)) == 0
    one, both = SEEN[1, "5 in 100 is lost"][0], SEEN[2, "5 in 100 is lost"][0]
    print(f"networks: at 5 in 100 one network lost {one} links, two lost {both}", flush=True)
    return well and both * 10 < one


def gaps(record):
    """How many readings of a record came more than 20 ms behind the one before, how many there are, and the longest gap."""
    readings = [int(it.split()[1]) for it in pathlib.Path(record).read_text().splitlines() if it.startswith("at ")]
    between = [later - earlier for earlier, later in itertools.pairwise(readings)]
    return sum(it > 20 for it in between), len(readings), max(between)


def is_same(run, record):
    """Whether what the interlocking's record says comes of it once more."""
    words = [run.program, "replay", run.machines.layout, record, "--node", run.machines.station]
    said = subprocess.run(words, stdout=subprocess.PIPE, text=True).stdout.strip()
    print(f"strangers: the record has {os.path.getsize(record)} bytes, and is {said}")
    return said == "same"


def nodes_of(run):
    return {it.split("\0")[3]: pid for pid, it in commands() if "\0node\0" in it and it.split("\0")[3] in run.machines.names}


def asked_of_nodes(run):
    """The KB that each node has asked for. What is used of them grows for some minutes: a row for 5120 datagrams is gone through once."""
    told = {name: pathlib.Path(f"/proc/{pid}/status").read_text().splitlines() for name, pid in nodes_of(run).items()}
    return {name: next(int(it.split()[1]) for it in lines if it.startswith("VmData")) for name, lines in told.items()}


def memory(pid):
    # what /proc/PID/status tells lags behind
    return next(int(it.split()[1]) for it in pathlib.Path(f"/proc/{pid}/smaps_rollup").read_text().splitlines() if it.startswith("Rss"))


def ticks(pid):
    return sum(int(it) for it in pathlib.Path(f"/proc/{pid}/stat").read_text().rsplit(")", 1)[1].split()[11:13])


def rest(run, route):
    run.treat(0, 0, 0, True)
    run.ready()
    nodes = nodes_of(run)
    before = {name: ticks(pid) for name, pid in nodes.items()}
    time.sleep(20)
    shares = {name: (ticks(pid) - before[name]) / 20 for name, pid in nodes.items()}
    print("rest: percent of a processor:", {name: round(share, 2) for name, share in shares.items()})
    print("rest: KB of memory:", {name: memory(pid) for name, pid in nodes.items()})
    return max(shares.values()) < 1


def commands():
    for pid in filter(str.isdigit, os.listdir("/proc")):
        try:
            yield pid, pathlib.Path(f"/proc/{pid}/cmdline").read_text()
        except OSError:
            pass


def main():
    words = argparse.ArgumentParser(description=__doc__, formatter_class=argparse.RawDescriptionHelpFormatter)
    words.add_argument("station")
    words.add_argument("--layout", default=str(TOP / "examples/halden.toml"))
    words.add_argument("--route", default="A-N1")
    words.add_argument("--seconds", type=int, default=60)
    words.add_argument("kinds", nargs="*", default=["quiet", "hostile", "strangers", "stopped", "flooded", "rest"])
    given = words.parse_args()
    well = True
    for kind, count in [(kind, count) for kind in given.kinds for count in ((1, 2) if kind == "networks" else (1,))]:
        with tempfile.TemporaryDirectory() as folder:
            machines = Machines(os.path.abspath(given.station), os.path.abspath(given.layout), folder, kind in ("stopped", "flooded", "networks"), count)
            try:
                run = Run(os.path.abspath(given.station), machines)
                run.seconds = given.seconds
                route = next(it for it in machines.told["route"] if it["name"] == given.route)
                did = globals()[kind](run, route)
                print(f"{kind}: {run.judge.looks} changes seen, {len(run.judge.unsafe)} unsafe", flush=True)
                well &= did and not run.judge.unsafe
                run.end()
            finally:
                machines.remove()
    sys.exit(not well)


if __name__ == "__main__":
    if sys.argv[1:2] == ["relay"]:
        relay(int(sys.argv[2]), int(sys.argv[3]))
    else:
        main()
