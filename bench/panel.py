#!/usr/bin/env python3
"""Opens the page of `station panel` in Chromium (headless, by its DevTools protocol; the Debian package is `chromium`), does there what a
signaller does, and looks at what is drawn. A judge that knows the layout alone looks at the plan after each step, and ten times a second
between them: each lit signal has a route whose points are all drawn right and still, and no two such routes conflict. It ends with a table
of what was seen, and with status 1 where anything was unsafe or didn't come.

    python3 bench/panel.py STATION [--to FOLDER] [--size 1280x720] [walk] [hand] [nodes] [storm] [load]

walk       on Halden and on Neustadt: a refusal and its cause, a route by two clicks, a train through the station, a point that doesn't
           arrive, a link that is cut, a restart of the interlocking, a route by the keyboard; then the record is replayed
hand       on Halden and on Neustadt: a section, a leg of a point, a signal and a route are closed, which keeps routes from being set; each is
           opened after a second question, and not before, and is counted; a train turns back, and its route is released and free 120 s
           later; a route is set again behind each train, and one waits for another, also while the page is loaded again
nodes      the same page for nodes that run as processes of their own: a route by two clicks, a train, all cancelled by a key; the
           interlocking's process is killed, and started again
storm      five commands a second for 60 s, drawn from a seed: routes, closings, moves, releases, what is set by itself, occupancies, and every
           kind of fault
load       50 clients that ask as the page does, for 60 s, beside 100 connections that stay half open: how long rounds took
"""
import argparse
import asyncio
import base64
import collections
import contextlib
import itertools
import json
import os
import pathlib
import random
import socket
import statistics
import struct
import subprocess
import sys
import tempfile
import time
import tomllib
import urllib.request

TOP = pathlib.Path(__file__).resolve().parent.parent
ROUND = 10_000  # microseconds
WAKING = 1_000  # by how much a round may begin late though the one before was in time

# Of a layout: the border at which a train comes, its routes, and a route for which a point has to move.
Walk = collections.namedtuple("Walk", "border routes moving")
WALKS = {"halden": Walk("West", ["A-N1", "N1-East"], "A-N2"), "neustadt": Walk("West1", ["A1-N1", "N1-V1", "V1-East1"], "A1-N5")}


class Panel:
    """The program on a layout, and where it listens."""

    def __init__(self, program, layout, folder):
        self.program, self.layout, self.record = program, layout, pathlib.Path(folder, "panel.session")
        with socket.create_server(("127.0.0.1", 0)) as free:
            self.port = free.getsockname()[1]
        words = [program, "panel", layout, "--port", str(self.port), *self.joined()]
        self.process = subprocess.Popen(words, stdout=subprocess.PIPE, text=True)
        self.address = self.process.stdout.readline().split()[-1]

    def joined(self):
        """What stands behind it: a station of its own, with a record."""
        return ["--record", str(self.record)]

    def end(self):
        self.process.terminate()
        self.process.wait()
        self.process.stdout.close()

    def get(self, path):
        with urllib.request.urlopen(f"{self.address.rstrip('/')}{path}", timeout=5) as answer:
            return answer.read()

    def replays(self):
        """Whether its record replays as it was, and what was said of it. It was stopped, perhaps in the middle of a line."""
        text = self.record.read_bytes()
        self.record.write_bytes(text[:text.rfind(b"\n") + 1])
        said = subprocess.run([self.program, "replay", self.layout, str(self.record)], stdout=subprocess.PIPE, stderr=subprocess.STDOUT, text=True)
        last = said.stdout.strip().splitlines()[-1:] or [""]
        return said.returncode == 0 and last[0] == "same", last[0]


class PanelOfNodes(Panel):
    """A panel that is joined to an interlocking's process. All nodes run as processes, with field equipment that is played."""

    def joined(self):
        with open(self.layout, "rb") as file:
            told = tomllib.load(file)
        self.name = told["station"]["name"]
        names = [self.name] + [it["name"] for kind in ("signal", "point", "detector") for it in told.get(kind, [])]
        *ports, self.operator = free_ports(len(names) + 1)
        self.addresses = self.record.with_name("addresses.toml")
        self.addresses.write_text("".join(f'{name} = "127.0.0.1:{port}"\n' for name, port in zip(names, ports)))
        words = [sys.executable, str(TOP / "examples" / "machines" / "field.py"), self.program, self.layout, str(self.addresses)]
        self.field = subprocess.Popen(words, stdin=subprocess.PIPE, stdout=subprocess.DEVNULL, stderr=subprocess.DEVNULL, text=True)
        self.start_node()
        return ["--node", f"127.0.0.1:{self.operator}"]

    def start_node(self):
        words = [self.program, "node", self.layout, self.name, "--addresses", str(self.addresses), "--operator", f"127.0.0.1:{self.operator}"]
        self.node = subprocess.Popen(words, stdin=subprocess.DEVNULL, stderr=subprocess.DEVNULL)

    def kill_node(self):
        self.node.kill()
        self.node.wait()

    def say(self, line):
        """To the field: a section is occupied or cleared."""
        print(line, file=self.field.stdin, flush=True)

    def end(self):
        super().end()
        self.kill_node()
        self.say("stop")
        self.field.stdin.close()
        self.field.wait()


def free_ports(count):
    with contextlib.ExitStack() as held:
        return [held.enter_context(socket.create_server(("127.0.0.1", 0))).getsockname()[1] for _ in range(count)]


class Browser:
    """A tab of Chromium, by the DevTools protocol over a web socket."""

    def __init__(self, address, width, height):
        self.folder = tempfile.TemporaryDirectory(ignore_cleanup_errors=True)
        words = ["chromium", "--headless=new", "--no-sandbox", "--disable-gpu", "--remote-debugging-port=0", "--force-prefers-reduced-motion"]
        self.process = subprocess.Popen([*words, f"--user-data-dir={self.folder.name}", address], stdout=subprocess.DEVNULL, stderr=subprocess.DEVNULL)
        self.number, self.read, self.faults = 0, b"", []
        self.socket = self.join(self.tab())
        self.call("Runtime.enable")
        self.call("Page.enable")
        self.call("Emulation.setDeviceMetricsOverride", width=width, height=height, deviceScaleFactor=1, mobile=False)

    def tab(self):
        for _ in range(200):
            with contextlib.suppress(OSError, StopIteration, ValueError, IndexError):
                port = pathlib.Path(self.folder.name, "DevToolsActivePort").read_text().split()[0]
                tabs = json.load(urllib.request.urlopen(f"http://127.0.0.1:{port}/json"))
                return next(tab["webSocketDebuggerUrl"] for tab in tabs if tab["type"] == "page")
            time.sleep(0.1)
        raise TimeoutError("chromium doesn't answer")

    def join(self, url):
        host, path = url.removeprefix("ws://").split("/", 1)
        joined = socket.create_connection(host.split(":"))
        key = base64.b64encode(os.urandom(16)).decode()
        joined.sendall(f"GET /{path} HTTP/1.1\r\nHost: {host}\r\nUpgrade: websocket\r\nConnection: Upgrade\r\n"
                       f"Sec-WebSocket-Key: {key}\r\nSec-WebSocket-Version: 13\r\n\r\n".encode())
        while b"\r\n\r\n" not in self.read:
            self.read += joined.recv(4096)
        self.read = self.read.split(b"\r\n\r\n", 1)[1]
        return joined

    def bytes(self, count):
        while len(self.read) < count:
            more = self.socket.recv(1 << 16)
            if not more:
                raise EOFError("chromium ended")
            self.read += more
        taken, self.read = self.read[:count], self.read[count:]
        return taken

    def message(self):
        text, is_last = b"", False
        while not is_last:
            first, length = self.bytes(2)
            is_last, length = first & 128, length & 127
            if length > 125:
                length = int.from_bytes(self.bytes(2 if length == 126 else 8), "big")
            text += self.bytes(length)
        return json.loads(text)

    def call(self, method, **given):
        self.number += 1
        text = json.dumps({"id": self.number, "method": method, "params": given}).encode()
        size = struct.pack(">B", 128 | len(text)) if len(text) < 126 else struct.pack(">BH", 254, len(text)) if len(text) < 1 << 16 else struct.pack(">BQ", 255, len(text))
        self.socket.sendall(b"\x81" + size + bytes(4) + text)
        while (said := self.message()).get("id") != self.number:
            if said.get("method") == "Runtime.exceptionThrown":
                self.faults.append(said["params"]["exceptionDetails"])
        if "error" in said:
            raise RuntimeError(said["error"])
        return said["result"]

    def tell(self, script):
        """What a script in the page comes to."""
        said = self.call("Runtime.evaluate", expression=script, returnByValue=True, awaitPromise=True)
        if "exceptionDetails" in said:
            raise RuntimeError(said["exceptionDetails"])
        return said["result"].get("value")

    def click(self, selector):
        x, y = self.tell(f"(() => {{ const of = document.querySelector({json.dumps(selector)}); of.scrollIntoView({{block: 'nearest'}}); "
                         "const box = of.getBoundingClientRect(); return [box.x + box.width / 2, box.y + box.height / 2]; })()")
        for kind in ("mousePressed", "mouseReleased"):
            self.call("Input.dispatchMouseEvent", type=kind, x=x, y=y, button="left", clickCount=1)

    def key(self, key):
        text = {"Enter": "\r"}.get(key, key if len(key) == 1 else "")
        self.call("Input.dispatchKeyEvent", type="keyDown", key=key, text=text)
        self.call("Input.dispatchKeyEvent", type="keyUp", key=key)

    def shot(self, path):
        path.write_bytes(base64.b64decode(self.call("Page.captureScreenshot", format="png")["data"]))

    def end(self):
        with contextlib.suppress(EOFError, OSError):
            self.call("Browser.close")
        self.process.wait(10)
        self.socket.close()
        self.folder.cleanup()


# What is drawn, by the colours and dashes that the browser computed: a lamp is lit where it isn't white, a leg of a point is whole where
# trains run over it.
DRAWN = """(() => {
  const style = of => getComputedStyle(of), isLit = lamp => style(lamp).fill !== 'rgb(255, 255, 255)';
  const shows = of => { const lit = ['near', 'distant'].map(lamp => isLit(of.querySelector('.lamp.' + lamp))); return lit[0] ? (lit[1] ? 'slow' : 'stop') : lit[1] ? 'proceed' : 'dark'; };
  const name = of => of.id.split('.')[1];
  const isWhole = of => style(of.querySelector('.rail')).strokeDasharray === 'none' || of.matches('.way,.cause');
  const lies = of => ['left', 'right'].filter(side => { const leg = document.getElementById(side + '.' + name(of)); return leg.classList.contains('lies') && isWhole(leg); });
  const all = (kind, what) => Object.fromEntries([...document.querySelectorAll('#p-plan .' + kind + '[id]')].map(of => [name(of), what(of)]));
  return {
    shows: all('signal', shows),
    lies: all('point', of => { const sides = lies(of); return sides.length === 1 ? sides[0] : 'none'; }),
    occupied: Object.keys(all('section', of => 0)).filter(one => document.getElementById('section.' + one).classList.contains('occupied')),
    set: [...document.querySelectorAll('.p-route[aria-pressed=true]')].map(of => of.id.slice(8)),
    mode: document.getElementById('p-mode').dataset.mode,
    said: document.getElementById('p-said').textContent,
    lost: document.getElementById('p-links').textContent,
    causes: [...document.querySelectorAll('#p-plan .cause')].map(of => of.id),
    can: [...document.querySelectorAll('#p-plan .can')].map(of => name(of)),
    trains: [...document.querySelectorAll('#p-plan .train')].length,
    closed: [...document.querySelectorAll('#p-plan .closed[id]')].map(of => of.id),
    closings: by('p-closings').hidden ? '' : by('p-closings').textContent,
    barred: [...document.querySelectorAll('.p-route.p-closed')].map(of => of.id.slice(8)),
    counts: by('p-counts').textContent,
    standing: [...document.querySelectorAll('#p-standing li')].map(of => of.querySelector('.p-grow')?.textContent || ''),
  };
})()"""


class Judge:
    """Knows the layout alone: the routes, what each requires, and which conflict. Of nodes it may be that a signal is drawn dark, since
    nothing is known of it."""

    def __init__(self, layout, rest=("stop",)):
        self.rest = rest
        with open(layout, "rb") as file:
            self.told = tomllib.load(file)
        self.sections = {it["name"]: it["section"] for kind in ("track", "point") for it in self.told.get(kind, [])}
        self.routes = {it["name"]: it for it in self.told["route"]}
        self.conflicts = {frozenset(pair) for pair in itertools.combinations(self.routes, 2) if self.conflict(*map(self.routes.get, pair))}
        self.looks, self.lit, self.unsafe = 0, 0, []

    @staticmethod
    def needs(route):
        return {**route.get("points", {}), **route.get("flank", {})}

    def over(self, route):
        return {self.sections[port.split(".")[0]] for port in route["path"]}

    def conflict(self, one, other):
        needs, others = self.needs(one), self.needs(other)
        return (one["entry"] == other["entry"] or self.over(one) & self.over(other) or any(others.get(it, side) != side for it, side in needs.items())
                or other["name"] in one.get("extra", []) or one["name"] in other.get("extra", []))

    def candidates(self, signal, aspect, lies):
        return [it["name"] for it in self.routes.values() if it["entry"] == signal and it.get("aspect", "proceed") == aspect
                and all(lies[point] == side for point, side in self.needs(it).items())]

    def look(self, drawn):
        lit = {signal: aspect for signal, aspect in drawn["shows"].items() if aspect not in self.rest}
        self.looks += 1
        self.lit = max(self.lit, len(lit))
        meant = [self.candidates(signal, aspect, drawn["lies"]) for signal, aspect in lit.items()]
        fits = any(not any(frozenset(pair) in self.conflicts for pair in itertools.combinations(chosen, 2)) for chosen in itertools.product(*meant))
        if not fits:
            self.unsafe.append(drawn)
            print("UNSAFE", drawn, flush=True)


class Signaller:
    """Works at the page. Each step waits for what it is to come to, and has a row in the table."""

    def __init__(self, panel, judge, size, folder):
        self.judge, self.folder, self.rows = judge, folder, []
        self.name = f"{pathlib.Path(panel.layout).stem}-{size[0]}"
        self.browser = Browser(panel.address, *size)

    def drawn(self):
        drawn = self.browser.tell(DRAWN)
        self.judge.look(drawn)
        return drawn

    def wait(self, step, holds, seconds=20):
        """Looks until something holds of what is drawn."""
        began = time.monotonic()
        while not (came := holds(drawn := self.drawn())) and time.monotonic() - began < seconds:
            time.sleep(0.1)
        took = time.monotonic() - began
        lit = ", ".join(f"{signal} {aspect}" for signal, aspect in drawn["shows"].items() if aspect not in self.judge.rest)
        self.rows.append((step, "came" if came else "DIDN'T COME", f"{took:.1f} s", lit or "none"))
        if not came:
            raise TimeoutError(step)
        return drawn

    def shot(self, name):
        if self.folder:
            self.browser.shot(self.folder / f"{self.name}-{name}.png")

    def painted(self):
        """Waits until the page has what stands."""
        for _ in range(100):
            with contextlib.suppress(RuntimeError):
                if self.browser.tell("number > 0"):
                    break
            time.sleep(0.1)

    def opened(self):
        self.painted()
        self.wait("all links up, waits for resume", lambda it: it["mode"] == "resume" and it["lost"] == "all links up", 40)

    def point_at(self, route):
        """Clicks the entry signal and then the exit."""
        one = self.judge.routes[route]
        self.browser.click(f'[id="signal.{one["entry"]}"] .hit')
        drawn = self.wait(f"exits from {one['entry']} are lit", lambda it: one["exit"] in it["can"], 5)
        self.shot(f"exits-{one['entry']}")
        kind = "border" if one["exit"] in self.judge.told["border"] else "signal"
        self.browser.click(f'[id="{kind}.{one["exit"]}"] .hit')
        return drawn

    def lit(self, route):
        one = self.judge.routes[route]
        return lambda it: it["shows"][one["entry"]] == one.get("aspect", "proceed") and route in it["set"]

    def set(self, route):
        self.point_at(route)
        self.wait(f"{route}: its signal clears", self.lit(route))

    def choose(self, select, value):
        self.browser.tell(f"by('{select}').value = {json.dumps(value)}")

    def refuse(self, route):
        section = self.judge.sections[self.judge.routes[route]["path"][-1].split(".")[0]]
        self.browser.click(f'[id="section.{section}"] .label')
        self.wait(f"a click occupies {section}", lambda it: section in it["occupied"], 5)
        self.browser.tell("document.activeElement.blur()")
        self.browser.key("/")
        self.browser.tell(f"by('p-route-{route}').focus()")
        self.browser.key("Enter")
        self.wait(f"{route} is refused, {section} is lit", lambda it: f"section {section} is occupied" in it["said"] and f"section.{section}" in it["causes"], 5)
        self.shot("refused")
        self.browser.click(f'[id="section.{section}"] .label')
        self.wait(f"a click clears {section}", lambda it: section not in it["occupied"], 5)

    def drive(self, walk):
        """A train comes at a border and drives through, while the routes ahead of it are set."""
        self.choose("p-place", f"border {walk.border}")
        self.browser.click("#p-put")
        self.browser.tell("by('p-trains').querySelector('select').value = 2; by('p-trains').querySelector('select').dispatchEvent(new Event('change'))")
        for route in walk.routes[1:]:
            self.set(route)
        over = self.judge.over(self.judge.routes[walk.routes[0]])
        self.wait("the train is in the first route", lambda it: over & set(it["occupied"]), 60)
        self.shot("train")
        self.wait("the train has left", lambda it: it["trains"] == 0 and not it["occupied"], 90)
        self.wait("its routes are free behind it", lambda it: not it["set"], 10)

    def jam(self, route):
        one = self.judge.routes[route]
        lies = self.drawn()["lies"]
        point = next(it for it, side in self.judge.needs(one).items() if lies[it] != side)
        self.choose("p-point", point)
        self.browser.click("#p-jam")
        self.point_at(route)
        self.wait(f"{point} moves, and doesn't arrive", lambda it: it["lies"][point] == "none" and route in it["set"], 5)
        time.sleep(2)
        self.wait(f"{one['entry']} stays at stop", lambda it: it["shows"][one["entry"]] == "stop" and it["lies"][point] == "none", 1)
        self.shot("jam")
        self.browser.click("#p-faults button")
        self.wait(f"{point} arrives, {one['entry']} clears", self.lit(route))

    def cut(self, route):
        signal = self.judge.routes[route]["entry"]
        self.choose("p-node", signal)
        self.browser.click("#p-cut")
        self.wait(f"the link of {signal} is cut: it falls to stop", lambda it: it["shows"][signal] == "stop" and signal in it["lost"], 10)
        self.shot("cut")
        self.browser.click("#p-faults button")
        self.wait("the link is mended, all links up", lambda it: it["lost"] == "all links up", 40)
        self.browser.key("x")
        self.wait("one key cancels all", lambda it: not it["set"], 10)

    def restart(self, route):
        self.by_keys(route)
        self.choose("p-node", self.judge.told["station"]["name"])
        self.browser.click("#p-restart")
        self.wait("the interlocking is made anew: it holds", lambda it: it["mode"] == "holding", 5)
        time.sleep(1)
        self.shot("hold")
        self.wait("no signal is lit", lambda it: set(it["shows"].values()) == {"stop"}, 10)
        self.wait("it waits for resume, all links up", lambda it: it["mode"] == "resume" and it["lost"] == "all links up", 40)
        self.resume()
        self.by_keys(route)
        self.shot("again")

    def close(self, words, kind):
        """Closes what words name, and looks for its sign in the plan or in the list."""
        name, *side = words.split()
        sign = {"section": f"section.{name}", "signal": f"signal.{name}", "point": f"{side[0] if side else 'left'}.{name}"}.get(kind)
        self.choose("p-thing", words)
        self.browser.click("#p-close")
        self.wait(f"{kind} {words} is closed", lambda it: f"{kind} {words}" in it["standing"] and (sign in it["closed"] if sign else name in it["barred"]), 5)

    def refused(self, route, why):
        """The list asks for a route, and the bar says why it is refused."""
        self.browser.tell(f"by('p-route-{route}').focus()")
        self.browser.key("Enter")
        self.wait(f"{route} is refused: {why}", lambda it: why in it["said"] and route not in it["set"], 5)

    def sure(self, answer):
        """Answers the second question."""
        self.wait("it is asked a second time", lambda it: self.browser.tell("by('p-sure').open"), 5)
        self.shot("sure")
        self.browser.click(f"#p-sure-{answer}")

    def ask_to_open(self, words, kind):
        self.browser.tell(f"[...document.querySelectorAll('#p-standing li')].find(of => of.textContent.includes({json.dumps(kind + ' ' + words)})).querySelector('button').focus()")
        self.browser.key("Enter")

    def open(self, words, kind, so_far):
        """Opens what was closed. Who leaves it at the second question leaves it closed, and uncounted."""
        told = f"{kind} {words}"
        self.ask_to_open(words, kind)
        self.sure("no")
        time.sleep(1)
        self.wait(f"{told} is left closed", lambda it: told in it["standing"] and it["counts"].endswith(f"{so_far} opened"), 5)
        self.ask_to_open(words, kind)
        self.sure("yes")
        self.wait(f"{told} is open, and counted", lambda it: told not in it["standing"] and it["counts"].endswith(f"{so_far + 1} opened"), 5)

    def occupy(self, section, is_occupied=True):
        self.browser.click(f'[id="section.{section}"] .label')
        self.wait(f"{section} is {'occupied' if is_occupied else 'clear'}", lambda it: (section in it["occupied"]) == is_occupied, 5)

    def turn_back(self, route):
        """A train comes to the signal, passes it, and goes back. Its route is cancelled and released."""
        one = self.judge.routes[route]
        approach, first = one["approach"][-1], self.judge.sections[one["path"][0].split(".")[0]]
        self.occupy(approach)
        self.browser.tell(f"command('set {route}')")
        self.wait(f"{route} is set, its signal clears", self.lit(route))
        self.occupy(first)
        self.wait(f"{one['entry']} falls to stop", lambda it: it["shows"][one["entry"]] == "stop", 10)
        self.occupy(first, False)
        self.browser.tell(f"command('cancel {route}')")
        time.sleep(2)
        self.wait(f"{route} is cancelled, and stays set", lambda it: route in it["set"], 5)
        self.browser.click(f"#p-release-{route}")
        self.sure("yes")
        began = time.monotonic()
        self.wait(f"{route} is released, and counted", lambda it: f"{route} is released" in it["standing"] and it["counts"].startswith("1 released"), 5)
        self.shot("released")
        self.wait(f"{route} is free", lambda it: route not in it["set"], 130)
        took = time.monotonic() - began
        self.rows.append((f"{route} was free after 120 s", "came" if 119 <= took <= 123 else "DIDN'T COME", f"{took:.1f} s", ""))
        self.occupy(approach, False)

    def load(self):
        """The page is loaded again: what the panel does by itself goes on."""
        self.browser.tell("number = -1")
        self.browser.call("Page.reload")
        self.painted()

    def by_itself(self, route, other):
        """A route is automatic: it is set, and set again when a train has passed. Another waits for it, and comes once it is manual."""
        one = self.judge.routes[route]
        self.browser.click(f"#p-automatic-{route}")
        self.wait(f"{route} is automatic: it is set by itself", self.lit(route))
        self.browser.tell(f"command('queue {other}')")
        self.wait(f"{other} waits", lambda it: f"{other} waits" in it["standing"] and other not in it["set"], 5)
        self.shot("automatic")
        self.load()
        sections = [one["approach"][-1], *dict.fromkeys(self.judge.sections[port.split(".")[0]] for port in one["path"])]
        for number, section in enumerate(sections):
            self.browser.tell(f"command('occupy {section}')")
            time.sleep(0.6)
            if number:
                self.browser.tell(f"command('clear {sections[number - 1]}')")
                time.sleep(0.6)
        self.browser.tell(f"command('clear {sections[-1]}')")
        self.wait(f"a train has passed: {other} is set, and {route} waits", lambda it: other in it["set"] and f"{route} waits" in it["standing"])
        self.browser.tell(f"command('cancel {other}')")
        self.wait(f"{other} is cancelled: {route} is set again", self.lit(route))
        self.browser.key("x")
        self.wait("one key cancels all, and nothing is set by itself", lambda it: not it["set"] and not any("automatic" in of or "waits" in of for of in it["standing"]), 10)
        time.sleep(3)
        self.wait("nothing is set", lambda it: not it["set"], 1)

    def resume(self):
        self.browser.key("r")
        self.wait("a key resumes", lambda it: it["mode"] == "ready", 5)

    def by_keys(self, route):
        """To the list of routes, down to this one, Enter."""
        self.browser.tell("document.activeElement.blur()")
        self.browser.key("/")
        for _ in range(list(self.judge.routes).index(route)):
            self.browser.key("ArrowDown")
        self.browser.key("Enter")
        self.wait(f"{route} by keys: its signal clears", self.lit(route))


def worked(signaller, panel, does):
    """Does something at the page, and ends the browser and the panel. It answers the faults of the page."""
    try:
        does()
    except TimeoutError:
        print("drawn last:", json.dumps(signaller.drawn()))
        signaller.shot("lacks")
    finally:
        faults = signaller.browser.faults
        signaller.browser.end()
        panel.end()
    return faults


def is_well(signaller, faults):
    """Prints what came, and answers whether all of it did, and nothing was unsafe."""
    judge = signaller.judge
    print(f"\n{signaller.name}: {judge.looks} looks, {judge.lit} signals lit at once, {len(judge.unsafe)} unsafe, {len(faults)} faults of the page\n")
    print(table(("step", "", "after", "lit signals"), signaller.rows), flush=True)
    return all(row[1] == "came" for row in signaller.rows) and not judge.unsafe and not faults


def walk(program, layout, size, folder):
    with tempfile.TemporaryDirectory() as place:
        panel = Panel(program, layout, place)
        signaller = Signaller(panel, Judge(layout), size, folder)
        faults = worked(signaller, panel, lambda: walk_over(signaller, WALKS[pathlib.Path(layout).stem]))
        same, said = panel.replays()
        signaller.rows.append(("the record is replayed", "came" if same else "DIDN'T COME", "", said))
    return is_well(signaller, faults)


def walk_over(signaller, steps):
    signaller.opened()
    signaller.shot("opened")
    signaller.resume()
    signaller.refuse(steps.routes[0])
    signaller.set(steps.routes[0])
    signaller.shot("proceed")
    signaller.drive(steps)
    signaller.jam(steps.moving)
    signaller.cut(steps.moving)
    signaller.restart(steps.routes[0])


def hand(program, layout, size, folder):
    with tempfile.TemporaryDirectory() as place:
        panel, steps = Panel(program, layout, place), WALKS[pathlib.Path(layout).stem]
        signaller = Signaller(panel, Judge(layout), size, folder)
        signaller.name += "-hand"
        faults = worked(signaller, panel, lambda: work_by_hand(signaller, steps.routes[0], steps.moving))
        same, said = panel.replays()
        signaller.rows.append(("the record is replayed", "came" if same else "DIDN'T COME", "", said))
    return is_well(signaller, faults)


def work_by_hand(signaller, route, other):
    """Closes and opens what a route uses, releases it, and has it set by itself; another route begins at the same signal."""
    one = signaller.judge.routes[route]
    section = signaller.judge.sections[one["path"][-1].split(".")[0]]
    point, side = next(iter(one["points"].items()))
    # In the order in which a refusal names the first of them.
    closed = [(route, "route", f"route {route} is closed"), (one["entry"], "signal", f"signal {one['entry']} is closed"),
              (section, "section", f"section {section} is closed"), (f"{point} {side}", "point", f"point {point} is closed at the {side}")]
    signaller.opened()
    signaller.resume()
    for words, kind, _ in closed:
        signaller.close(words, kind)
    signaller.shot("closed")
    for number, (words, kind, why) in enumerate(closed):
        signaller.load()
        signaller.wait("all that is closed stands at the head", lambda it: f"{len(closed) - number} closed" in it["closings"], 5)
        signaller.refused(route, why)
        signaller.open(words, kind, number)
    signaller.turn_back(route)
    signaller.by_itself(route, other)


def nodes(program, layout, size, folder):
    with tempfile.TemporaryDirectory() as place:
        panel = PanelOfNodes(program, layout, place)
        signaller = Signaller(panel, Judge(layout, ("stop", "dark")), size, folder)
        signaller.name += "-nodes"
        faults = worked(signaller, panel, lambda: work_on_nodes(signaller, panel, WALKS[pathlib.Path(layout).stem].routes[0]))
    return is_well(signaller, faults)


def work_on_nodes(signaller, panel, route):
    section = signaller.judge.routes[route]["approach"][-1]
    signaller.opened()
    signaller.resume()
    panel.say(f"occupy {section}")
    signaller.wait(f"{section} is reported occupied", lambda it: section in it["occupied"], 5)
    signaller.set(route)
    signaller.shot("proceed")
    signaller.browser.key("x")
    signaller.wait("one key cancels all", lambda it: set(it["shows"].values()) == {"stop"}, 10)
    panel.say(f"clear {section}")
    signaller.wait(f"{section} is reported clear", lambda it: section not in it["occupied"], 5)
    panel.kill_node()
    signaller.wait("the interlocking's process is killed: nothing is known", lambda it: it["mode"] == "gone" and set(it["shows"].values()) == {"dark"}, 10)
    signaller.shot("gone")
    panel.start_node()
    signaller.wait("it is started again: it holds", lambda it: it["mode"] == "holding", 10)
    signaller.wait("it waits for resume, all links up", lambda it: it["mode"] == "resume" and it["lost"] == "all links up", 40)
    signaller.resume()
    signaller.by_keys(route)
    signaller.shot("again")


def drawn_command(draw, judge, held):
    """A command of any kind that the page gives, routes more often than faults."""
    told, route = judge.told, draw.choice(list(judge.routes))
    controllers = [it["name"] for kind in ("signal", "point", "detector") for it in told[kind]]
    node, point, section = draw.choice(controllers), draw.choice([it["name"] for it in told["point"]]), draw.choice(told["section"])
    thing = draw.choice([section, f"{point} {draw.choice(['left', 'right'])}", draw.choice(told["signal"])["name"], route])
    kinds = {f"close {thing}": 1, f"open {thing}": 15, f"move {point} {draw.choice(['left', 'right'])}": 3, f"release {draw.choice(held or [route])}": 3,
             f"automatic {route}": 1, f"queue {route}": 3, f"manual {route}": 3,
             f"set {route}": 30, f"cancel {draw.choice(held or [route])}": 6, f"occupy {section}": 2, f"clear {section}": 15, f"cut {node}": 1, f"mend {node}": 8,
             f"restart {node} 0 {draw.getrandbits(32)}": 1, f"restart {told['station']['name']} 0 {draw.getrandbits(32)}": 0.3, f"jam {point}": 2,
             f"unjam {point}": 8, f"drop {draw.choice([0, 0, 0, 20, 5])}": 2, f"delay {draw.choice([0, 0, 0, 100, 400])}": 2}
    return draw.choices(list(kinds), list(kinds.values()))[0]


def storm(program, layout, size, folder, seconds=60, seed=1):
    draw, given, at_once = random.Random(seed), collections.Counter(), collections.Counter()
    with tempfile.TemporaryDirectory() as place:
        panel, judge = Panel(program, layout, place), Judge(layout)
        signaller = Signaller(panel, judge, size, folder)
        try:
            signaller.opened()
            until = time.monotonic() + seconds
            while time.monotonic() < until:
                drawn = signaller.drawn()
                at_once[sum(aspect != "stop" for aspect in drawn["shows"].values())] += 1
                command = "resume" if drawn["mode"] == "resume" else drawn_command(draw, judge, drawn["set"])
                signaller.browser.tell(f"command({json.dumps(command)})")
                given[command.split()[0]] += 1
                signaller.drawn()
                time.sleep(0.1)
            signaller.shot("storm")
        finally:
            faults = signaller.browser.faults
            signaller.browser.end()
            panel.end()
        same, said = panel.replays()
    rows = [("commands", ", ".join(f"{count} {word}" for word, count in given.most_common())), ("looks", f"{judge.looks}, {len(judge.unsafe)} unsafe"),
            ("signals lit", ", ".join(f"{count} times {lit}" for lit, count in sorted(at_once.items()))), ("record", said), ("faults of the page", str(len(faults)))]
    print(f"\n{signaller.name}: a storm of {seconds} s\n\n{table(('', ''), rows)}", flush=True)
    return same and not judge.unsafe and not faults and max(at_once) > 0


def table(head, rows):
    widths = [max(len(row[at]) for row in (head, *rows)) for at in range(len(head))]
    return "\n".join("  ".join(cell.ljust(width) for cell, width in zip(row, widths)).rstrip() for row in (head, *rows))


async def client(panel, until, answers):
    """Asks as the page does: what changed since the last answer, 50 ms after it."""
    reader, writer = await asyncio.open_connection("127.0.0.1", panel.port)
    number = 0
    while (began := time.monotonic()) < until:
        writer.write(f"GET /state?after={number} HTTP/1.1\r\nHost: 127.0.0.1:{panel.port}\r\n\r\n".encode())
        head = await asyncio.wait_for(reader.readuntil(b"\r\n\r\n"), 10)
        length = next(int(it.split(b":")[1]) for it in head.split(b"\r\n") if it.lower().startswith(b"content-length:"))
        number = json.loads(await reader.readexactly(length))["number"]
        answers.append(time.monotonic() - began)
        await asyncio.sleep(0.05)
    writer.close()


async def half_open(panel, until, closed):
    """Sends a part of a request and no more; where it is closed, another one comes."""
    while time.monotonic() < until:
        with contextlib.suppress(OSError):
            reader, writer = await asyncio.open_connection("127.0.0.1", panel.port)
            writer.write(b"POST /command HTTP/1.1\r\nHost: 127.0.0.1\r\nContent-Length: 100\r\n\r\nset")
            with contextlib.suppress(asyncio.TimeoutError):
                await asyncio.wait_for(reader.read(), max(0.1, until - time.monotonic()))
                closed.append(1)
            writer.close()
        await asyncio.sleep(0.1)


async def crowd(panel, seconds, answers, closed):
    until = time.monotonic() + seconds
    await asyncio.gather(*(half_open(panel, until, closed) for _ in range(100)), *(client(panel, until, answers) for _ in range(50)))


def rounds(record):
    """The microseconds from each round to the next: each begins in the record with the time that passed."""
    lines = (line.split() for line in record.read_text().splitlines() if line.startswith("time "))
    return [int(words[1]) for words in lines]


def told(panel, kind):
    lines = [line for _, line in json.loads(panel.get("/state?after=0"))["changed"]]
    return next(line.split()[1:] for line in lines if line.startswith(kind + " "))


def memory(pid):
    return next(int(it.split()[1]) for it in pathlib.Path(f"/proc/{pid}/status").read_text().splitlines() if it.startswith("VmRSS"))


def in_time(rounds):
    """The share of rounds that were over when the next was due."""
    return sum(it <= ROUND + WAKING for it in rounds) / len(rounds)


def lasted(rounds):
    tail = statistics.quantiles(rounds, n=100)
    return (f"{len(rounds)}: {in_time(rounds):.2%} within {ROUND / 1000:.0f} ms (and {WAKING / 1000:.0f} to wake), 99 of 100 within {tail[98] / 1000:.1f} ms, "
            f"the longest {max(rounds) / 1000:.1f} ms")


def ticks(pid):
    """The hundredths of a second that a process has taken of processors."""
    return sum(int(it) for it in pathlib.Path(f"/proc/{pid}/stat").read_text().rsplit(")", 1)[1].split()[11:13])


def load(program, layout, size, folder, seconds=60):
    with tempfile.TemporaryDirectory() as place:
        panel, answers, closed = Panel(program, layout, place), [], []
        try:
            time.sleep(12)
            before, had, took = len(rounds(panel.record)), int(told(panel, "memory")[0]), ticks(panel.process.pid)
            asyncio.run(crowd(panel, seconds, answers, closed))
            all_rounds, has, takes, resident = rounds(panel.record), int(told(panel, "memory")[0]), ticks(panel.process.pid), memory(panel.process.pid)
        finally:
            panel.end()
    rest, after = all_rounds[1:before], all_rounds[before:]
    rows = [("answers", f"{len(answers)}, the median after {statistics.median(answers) * 1000:.1f} ms, the last after {max(answers) * 1000:.1f} ms"),
            ("half-open connections closed", str(len(closed))),
            ("rounds before that", lasted(rest)), ("rounds", lasted(after)),
            ("processor", f"{(takes - took) / seconds:.0f} % of one, {(takes - took) * 10 / len(after):.2f} ms a round"),
            ("memory of datagrams", f"{(has - had) / seconds * 60 / 1e6:.2f} MB a minute; the process has {resident / 1000:.0f} MB")]
    print(f"\n{pathlib.Path(layout).stem}: 50 clients and 100 half-open connections for {seconds} s\n\n{table(('', ''), rows)}", flush=True)
    return in_time(after) >= 0.99


def main():
    words = argparse.ArgumentParser(description=__doc__, formatter_class=argparse.RawDescriptionHelpFormatter)
    words.add_argument("station")
    words.add_argument("--to", type=pathlib.Path, help="a folder for pictures of the page")
    words.add_argument("--size", default="1280x720", type=lambda text: tuple(map(int, text.split("x"))))
    words.add_argument("--layout", action="append", help="examples/halden.toml and examples/neustadt.toml, if not said")
    words.add_argument("kinds", nargs="*", default=["walk", "hand", "nodes", "storm", "load"])
    given = words.parse_intermixed_args()
    if given.to:
        given.to.mkdir(parents=True, exist_ok=True)
    well = True
    for kind in given.kinds:
        for layout in given.layout or [str(TOP / "examples" / f"{name}.toml") for name in WALKS]:
            well &= globals()[kind](os.path.abspath(given.station), os.path.abspath(layout), given.size, given.to)
    sys.exit(not well)


if __name__ == "__main__":
    main()
