#!/usr/bin/env python3
"""Opens the page of the built `station draw` in Chromium (headless), draws Halden there as a person does, and looks at what comes of it:
who checked, what is saved, a file that changed meanwhile, a panel that runs beside the drawing and is stopped, what is refused. It ends
with a table of what was seen, and with status 1 where anything didn't come.

    python3 bench/draw_desk.py STATION [--to FOLDER] [--size 1280x720] [refused] [drawn] [opened] [long]

refused    requests of another host, of another origin, without the token or with another one, and of no meaning, by bare sockets; what is
           said of a text is what `station check --explain --complete` says
drawn      a file that isn't there is drawn from nothing, checked, saved and run: the panel's page is joined, a route is set there, the
           drawing is changed and checked meanwhile, the panel is stopped and its record replayed; a second one runs. A file that
           changed meanwhile isn't written over unasked, and one that can't be written is told
opened     the layouts of examples/ are opened, checked and saved as they are
long       a layout near 1 MiB is checked, and one above it is refused; 40 clients ask at once beside a panel that runs
"""
import argparse
import contextlib
import http.client
import json
import pathlib
import re
import socket
import subprocess
import sys
import tempfile
import threading
import time
import tomllib
import urllib.request

from draw import Page, Report, draw_halden, example, told
from panel import DRAWN, TOP, Browser, free_ports, table


class Desk:
    """The program on a file, and where it listens."""

    def __init__(self, program, file):
        self.program, self.file = program, pathlib.Path(file)
        [self.port] = free_ports(1)
        words = [program, "draw", str(self.file), "--port", str(self.port)]
        self.process = subprocess.Popen(words, stdout=subprocess.PIPE, stderr=subprocess.PIPE, text=True, cwd=self.file.parent)
        self.address = self.process.stdout.readline().split()[-1]
        self.token = json.loads(self.ask("GET", "/layout")[1])["token"]

    def end(self):
        self.process.terminate()
        self.process.wait()
        self.process.stdout.close()
        self.process.stderr.close()

    def own(self):
        return {"Host": f"127.0.0.1:{self.port}", "Origin": f"http://127.0.0.1:{self.port}", "X-Token": self.token}

    def ask(self, method, path, body=None, **fields):
        """The status and the text of an answer. A field that is None isn't sent."""
        asked = http.client.HTTPConnection("127.0.0.1", self.port, timeout=20)
        heads = {"Host": f"127.0.0.1:{self.port}"} | {name.replace("_", "-"): value for name, value in fields.items()}
        asked.putrequest(method, path, skip_host=True, skip_accept_encoding=True)
        for name, value in heads.items():
            if value is not None:
                asked.putheader(name, value)
        data = None if body is None else body.encode() if isinstance(body, str) else body
        if data is not None:
            asked.putheader("Content-Length", str(len(data)))
        asked.endheaders(data)
        with contextlib.closing(asked):
            answered = asked.getresponse()
            return answered.status, answered.read().decode()

    def post(self, path, body, **fields):
        own = {name.replace("-", "_"): value for name, value in self.own().items()}
        return self.ask("POST", path, body, **{**own, **fields})

    def checked(self, text):
        """What the command says of a text."""
        said = subprocess.run([self.program, "check", "-", "--explain", "--complete"], input=text, capture_output=True, text=True)
        return {"status": said.returncode, "out": said.stdout, "err": said.stderr}


class Served(Page):
    """The page of a desk, which counts what it asked and isn't answered yet."""

    def __init__(self, address, size):
        super().__init__(address, size)
        self.tell("(() => { const ask = window.fetch; window.asked = 0;"
                  " window.fetch = (...words) => { asked += 1; return ask(...words).finally(() => { asked -= 1; }); }; })()")

    def settle(self):
        """Waits until all is answered, and what is drawn was checked: it is asked a quarter of a second after a change."""
        time.sleep(0.6)
        if not wait(lambda: self.tell("asked === 0 && verdict() !== null"), 30):
            raise TimeoutError("the program doesn't answer")

    def hint(self):
        return self.tell("by('d-hint').textContent")


def kept(held, it):
    """A program or a page that is ended in the end, whatever comes."""
    held.callback(it.end)
    return it


# ---- what is refused

UNSOUND = 'station = 7\n'


def refused(given, report, folder, held):
    desk = kept(held, Desk(given.program, folder / "refused.toml"))
    page = desk.ask("GET", "/")
    report.say("the page is served", page[0] == 200 and "<title>" in page[1] and desk.token not in page[1], page[0])
    for words, wanted, answered in (
        ("another host", 403, desk.ask("GET", "/", Host="evil.example")),
        ("no host", 400, desk.ask("GET", "/", Host=None)),
        ("another port", 403, desk.ask("GET", "/layout", Host=f"127.0.0.1:{desk.port + 1}")),
        ("another host that saves", 403, desk.post("/save", UNSOUND, Host="evil.example", X_Known="anything")),
        ("another origin", 403, desk.post("/save", UNSOUND, Origin="http://evil.example", X_Known="anything")),
        ("no origin", 403, desk.post("/check", UNSOUND, Origin=None)),
        ("another token", 403, desk.post("/save", UNSOUND, X_Token="guess", X_Known="anything")),
        ("no token", 403, desk.post("/run", "start", X_Token=None)),
        ("nothing is there", 404, desk.ask("GET", "/favicon.ico")),
        ("a save that is got", 405, desk.ask("GET", "/save")),
        ("a page that is posted", 405, desk.post("/", "")),
        ("no word", 400, desk.post("/run", "go")),
        ("no text", 400, desk.post("/check", b"\xff\xfe")),
        ("no text to save", 400, desk.post("/save", b"\xff\xfe", X_Known="anything")),
        ("a panel of nothing", 409, desk.post("/run", "start")),
        ("a save of who says nothing", 409, desk.post("/save", UNSOUND)),
        ("a save of who knows another text", 409, desk.post("/save", UNSOUND, X_Known="7")),
    ):
        report.say(f"{words}: {wanted}", answered[0] == wanted, answered)
    report.say("nothing was written", not desk.file.exists())
    for name, text in (("sound", example("halden")), ("no layout", UNSOUND), ("left out", example("crossover")), ("faulty", example("halden").replace('exit = "N1"', 'exit = "N2"', 1)), ("empty", "")):
        status, said = desk.post("/check", text)
        said = json.loads(said)
        report.say(f"{name}: what is said is what the command says", {key: said[key] for key in ("status", "out", "err")} == desk.checked(text) and status == 200, said["err"] or said["out"].splitlines()[0])
    desk.post("/check", UNSOUND)
    status, said = desk.post("/run", "start")
    report.say("a panel of a faulty text says what is missing", status == 409 and "layout fault" in said, said)


# ---- from nothing to trains

def drawn(given, report, folder, held):
    desk = kept(held, Desk(given.program, folder / "mine.toml"))
    page = kept(held, Served(desk.address, given.size))
    by = lambda: page.tell("by('d-by').textContent")
    draw_halden(page, report)
    page.settle()
    version = subprocess.run([given.program, "--version"], capture_output=True, text=True).stdout.split()[-1]
    report.say("it says who checked", by() == f"checked by station {version}", by())
    page.control("s")
    page.settle()
    report.say("it is saved", desk.file.exists() and desk.file.read_text() == page.text() and "saved" in page.hint(), page.hint())
    report.shot(page, "desk-saved")
    run_beside(desk, page, report, held)
    changed_meanwhile(desk, page, report)
    report.say("drawn: no exception in the page", not page.faults, page.faults[:1])


def run_beside(desk, page, report, held):
    page.tell("window.open = () => null")
    page.click("#d-run")
    page.settle()
    address = re.search(r"http://127.0.0.1:\d+/", page.hint())
    report.say("it runs", address is not None and page.tell("by('d-run').textContent") == "Stop it", page.hint())
    panel = kept(held, Browser(address[0], *report.size))
    came = lambda holds, seconds=40: wait(lambda: holds(panel.tell(DRAWN)), seconds)
    report.say("the panel's links are up", came(lambda it: it["mode"] == "resume" and it["lost"] == "all links up"))
    panel.key("r")
    report.say("it takes commands", came(lambda it: it["mode"] == "ready"))
    for one in ("signal.A", "signal.N1"):
        panel.click(f'[id="{one}"] .hit')
        time.sleep(0.5)
    report.say("a route clears its signal", came(lambda it: it["shows"].get("A") == "proceed" and "A-N1" in it["set"]))
    page.tell("change(all => { all.station.id += 1; })")
    page.settle()
    report.say("the drawing is checked beside it", "checked by station" in page.tell("by('d-by').textContent") and page.tell("isRunning"), page.said())
    report.shot(panel, "desk-panel")
    status, said = desk.post("/run", "start")
    report.say("one panel runs at a time", status == 409, said)
    page.click("#d-run")
    page.settle()
    report.say("it is stopped", page.tell("by('d-run').textContent") == "Run it" and not reaches(address[0]), page.hint())
    replayed = subprocess.run([desk.program, "replay", str(desk.file), str(desk.file.with_name("panel.session"))], capture_output=True, text=True)
    report.say("its record replays", replayed.stdout.strip().splitlines()[-1:] == ["same"], (replayed.stdout + replayed.stderr)[-80:])
    page.click("#d-run")
    page.settle()
    again = re.search(r"http://127.0.0.1:\d+/", page.hint())
    report.say("a second one runs", again is not None and wait(lambda: reaches(again[0]), 5), page.hint())
    page.click("#d-run")
    page.settle()


def changed_meanwhile(desk, page, report):
    page.control("s")
    page.settle()
    report.say("a change is saved", "saved" in page.hint() and desk.file.read_text() == page.text(), page.hint())
    desk.file.write_text(example("crossover"))
    page.tell("change(all => { all.station.id += 1; })")
    page.settle()
    page.control("s")
    page.settle()
    report.say("a file that changed meanwhile is asked for", page.tell("by('d-ask').open") and desk.file.read_text() == example("crossover"), page.tell("by('d-ask-head').textContent"))
    report.shot(page, "desk-changed")
    page.click("#d-ask button[value=no]")
    page.settle()
    report.say("it is left", desk.file.read_text() == example("crossover"))
    page.control("s")
    page.settle()
    page.click("#d-ask button[value=over]")
    page.settle()
    report.say("it is written over where that is wanted", desk.file.read_text() == page.text(), page.hint())
    desk.file.write_text(example("crossover"))
    page.tell("change(all => { all.station.id += 1; })")
    page.control("s")
    page.settle()
    page.click("#d-ask button[value=open]")
    page.settle()
    report.same("what is there is opened where that is wanted", told(example("crossover")), told(page.text()))
    desk.file.unlink()
    desk.file.mkdir()
    page.tell("change(all => { all.station.id += 1; })")
    page.control("s")
    page.settle()
    report.say("what can't be written is told", "isn't saved" in page.hint(), page.hint())


def wait(holds, seconds):
    began = time.monotonic()
    while time.monotonic() - began < seconds:
        with contextlib.suppress(RuntimeError, KeyError):
            if holds():
                return True
        time.sleep(0.1)
    return False


def reaches(address):
    with contextlib.suppress(OSError):
        with urllib.request.urlopen(address, timeout=3) as answered:
            return answered.status == 200
    return False


# ---- examples

def opened(given, report, folder, _held):
    for layout in sorted((TOP / "examples").glob("*.toml")):
        if "station" in tomllib.loads(layout.read_text()):
            with contextlib.ExitStack() as held:
                opened_again(given, report, layout, folder / layout.name, held)


def opened_again(given, report, layout, file, held):
    file.write_text(layout.read_text())
    desk = kept(held, Desk(given.program, file))
    page = kept(held, Served(desk.address, given.size))
    page.settle()
    report.say(f"{layout.stem}: opened and checked", "checked by station" in page.tell("by('d-by').textContent"), page.said())
    page.control("s")
    page.settle()
    report.same(f"{layout.stem}: saved as it was", told(layout.read_text()), told(file.read_text()))
    report.say(f"{layout.stem}: no exception in the page", not page.faults, page.faults[:1])


# ---- much at once

def long(given, report, folder, held):
    desk = kept(held, Desk(given.program, folder / "long.toml"))
    text = example("halden")
    full = text + "#" * ((1 << 20) - len(text.encode()) - 1) + "\n"
    began = time.monotonic()
    status, said = desk.post("/check", full)
    report.say("a layout of 1 MiB is checked", status == 200 and json.loads(said)["status"] == 0, f"{time.monotonic() - began:.2f} s")
    try:
        status = desk.post("/check", full + "#")[0]
    except OSError as fault:
        status = fault
    report.say("one byte more is refused", status == 413 or isinstance(status, OSError), status)
    status, said = desk.post("/run", "start")
    report.say("a panel of it runs", status == 200 and wait(lambda: reaches(said.strip()), 5), said)
    took, wrong = [], []

    def client():
        for _ in range(20):
            at = time.monotonic()
            try:
                if desk.post("/check", text)[0] != 200:
                    wrong.append("status")
            except OSError as fault:
                wrong.append(fault)
            took.append(time.monotonic() - at)

    clients = [threading.Thread(target=client) for _ in range(40)]
    for one in clients:
        one.start()
    for one in clients:
        one.join()
    report.say("40 clients are answered beside it", not wrong and len(took) == 800, f"at most {max(took):.2f} s {wrong[:1]}")
    report.say("the panel goes on", reaches(said.strip()))
    report.say("it is stopped", desk.post("/run", "stop")[0] == 200 and wait(lambda: not reaches(said.strip()), 5))
    with socket.create_connection(("127.0.0.1", desk.port)) as half:
        half.sendall(b"POST /check HTTP/1.1\r\nHost:")
        report.say("half a request keeps nobody waiting", desk.post("/check", text)[0] == 200)


def main():
    words = argparse.ArgumentParser(description=__doc__, formatter_class=argparse.RawDescriptionHelpFormatter)
    words.add_argument("program", type=lambda text: str(pathlib.Path(text).resolve()), help="the built program")
    words.add_argument("--to", type=pathlib.Path, help="a folder for pictures of the page")
    words.add_argument("--size", default="1280x720", type=lambda text: tuple(map(int, text.split("x"))))
    words.add_argument("kinds", nargs="*", default=["refused", "drawn", "opened", "long"])
    given = words.parse_intermixed_args()
    if given.to:
        given.to.mkdir(parents=True, exist_ok=True)
    report = Report(given.to, given.size, given.program)
    does = {"refused": refused, "drawn": drawn, "opened": opened, "long": long}
    with tempfile.TemporaryDirectory() as folder:
        for kind in given.kinds:
            try:
                with contextlib.ExitStack() as held:
                    does[kind](given, report, pathlib.Path(folder), held)
            except (RuntimeError, TimeoutError, TypeError, OSError) as fault:
                report.say(kind, False, repr(fault))
    print(table(("step", "", ""), report.rows))
    sys.exit(any(row[1] != "came" for row in report.rows))


if __name__ == "__main__":
    main()
