#!/usr/bin/env python3
"""Opens the page on which a station is drawn in Chromium (headless, by its DevTools protocol; the Debian package is `chromium`), draws there
as a person does, and judges what comes of it. It ends with a table of what was seen, and with status 1 where anything didn't come.

    python3 bench/draw.py [--to FOLDER] [--size 1280x720] [--cases FOLDER] [--station STATION] [mouse] [keyboard] [chosen] [view] [faults] [served] [opened] [random] [routes]

mouse      Halden and Neustadt are drawn by the mouse: their sections, borders, joints, tracks, points, signals, routes and aspects are
           those of examples/. All is undone and redone, and the file that was written opens again as the same
keyboard   the small station by the keyboard alone, with a note whose button puts the signal that is wanted
chosen     what is chosen by hand and not derived: names, aspects, approaches, extra conflicts, what is left out, slow legs. A signal is
           dragged, room is made, rails are erased; a change takes some milliseconds
view       zoom, sliding, moving the paper, fit; names by double click; another bend by Shift; a new drawing, and undo of it; a page that is
           loaded again has what was drawn
faults     each fault that a drawing can have is shown at its place, and its button mends it
served     the page as a program serves it (played here, so that it says what is wanted): who checked, saving, a file that changed
           meanwhile, running
opened     the layouts of examples/, which have no positions, are placed; what was chosen by hand is kept when they are opened again
random     200 random drawings, or --count: what has no fault opens again as the same. With --station, the program, `station check` accepts each text, and
           those that were drawn by mouse
routes     layouts with the routes that another program derived (--cases, a folder of NAME.toml with NAME.routes): the page derives the
           same, and finds places for them, unless two borders are joined to one another
"""
import argparse
import collections
import http.server
import json
import pathlib
import subprocess
import sys
import tempfile
import threading
import time
import tomllib

import draw_page
from panel import Browser, table

TOP = pathlib.Path(__file__).resolve().parent.parent
KEYS = {"right": "ArrowRight", "left": "ArrowLeft", "up": "ArrowUp", "down": "ArrowDown"}
# A signal stands on the right of its trains: below the rail for those to the east.
EAST, WEST = 0.35, -0.35


class Page(Browser):
    """A person at the page: the mouse and the keyboard. Places are those of the grid."""

    def __init__(self, address, size):
        super().__init__(address, *size)
        self.actions = 0
        for _ in range(300):
            try:
                if self.tell("typeof read === 'object' && read !== null && Boolean(document.querySelector('#d-over'))"):
                    return
            except RuntimeError:
                pass
            time.sleep(0.1)
        raise TimeoutError("the page doesn't come")

    def pixels(self, *places):
        return self.tell(f"(() => {{ const {{box, scale, left, top}} = scaleNow(); return {json.dumps(places)}.map(([x, y]) => "
                         "[box.x + left + (x * U - view.x) * scale, box.y + top + (y * U - view.y) * scale]); })()")

    def mouse(self, kind, x, y, count=1):
        isMove = kind == "mouseMoved"
        self.call("Input.dispatchMouseEvent", type=kind, x=x, y=y, button="none" if isMove else "left", clickCount=0 if isMove else count, buttons=0 if kind == "mouseReleased" else 1)

    def move(self, x, y):
        [(u, v)] = self.pixels((x, y))
        self.call("Input.dispatchMouseEvent", type="mouseMoved", x=u, y=v)

    def at(self, x, y, times=1):
        [(u, v)] = self.pixels((x, y))
        self.call("Input.dispatchMouseEvent", type="mouseMoved", x=u, y=v)
        for count in range(1, times + 1):
            self.mouse("mousePressed", u, v, count)
            self.mouse("mouseReleased", u, v, count)
        self.actions += times

    def drag(self, *places):
        spots = self.pixels(*places)
        self.call("Input.dispatchMouseEvent", type="mouseMoved", x=spots[0][0], y=spots[0][1])
        self.mouse("mousePressed", *spots[0])
        for (a, b), (c, d) in zip(spots, spots[1:]):
            for part in (1, 2, 3, 4):
                self.mouse("mouseMoved", a + (c - a) * part / 4, b + (d - b) * part / 4)
        self.mouse("mouseReleased", *spots[-1])
        self.actions += 1

    def line(self, *places):
        for place in places:
            self.at(*place)
        self.press("Enter")

    def press(self, *keys):
        for key in keys:
            self.key(KEYS.get(key, key))
            self.actions += 1

    def control(self, key):
        self.call("Input.dispatchKeyEvent", type="keyDown", key=key, modifiers=2)
        self.call("Input.dispatchKeyEvent", type="keyUp", key=key, modifiers=2)

    def write(self, text):
        for letter in text:
            self.key(letter)
        self.press("Enter")
        self.actions += len(text)

    def named(self, places, times=2):
        for name, (x, y) in places.items():
            self.at(x, y, times)
            self.write(name)

    def station(self, name):
        self.tell("(by('d-station').focus(), by('d-station').select())")
        self.write(name)

    def row(self, selector, words):
        """Points at the row of a list that says something."""
        self.tell(f"[...document.querySelectorAll({json.dumps(selector + ' li')})].find(of => of.textContent.includes({json.dumps(words)})).scrollIntoView({{block: 'nearest'}})")
        x, y = self.tell(f"(() => {{ const of = [...document.querySelectorAll({json.dumps(selector + ' li')})].find(of => of.textContent.includes({json.dumps(words)}));"
                         " const box = of.querySelector('.d-grow').getBoundingClientRect(); return [box.x + 20, box.y + 8]; })()")
        self.call("Input.dispatchMouseEvent", type="mouseMoved", x=x, y=y)

    def said(self):
        return self.tell("by('d-said').textContent")

    def text(self):
        return self.tell("by('d-toml').value")

    def rows(self, selector="#d-faults"):
        return self.tell(f"[...document.querySelectorAll({json.dumps(selector + ' li')})].map(of => of.textContent)")

    def again(self):
        """Whether the file that would be written opens again as the same."""
        return self.tell("(() => { const text = read.text; replace(newDrawing(), []); const fault = load(text); return fault || (read.text === text ? '' : 'another text'); })()")

    def anew(self):
        self.tell("(replace(newDrawing(), []), past.length = future.length = 0, setTool('rail'))")


class Report:
    """What came, row by row."""

    def __init__(self, folder, size, station=None):
        self.folder, self.size, self.station, self.rows = folder, size, station, []

    def say(self, step, came, words=""):
        self.rows.append((step, "came" if came else "DIDN'T COME", str(words)[:160]))

    def same(self, step, one, other):
        """Whether two layouts say the same, key by key."""
        differ = [f"{key}: {sorted(map(str, one[key] ^ other[key]))}" for key in one if one[key] != other[key]]
        self.say(step, not differ, "; ".join(differ))

    def checked(self, step, texts):
        """Whether the program accepts texts that the page accepts."""
        if not self.station:
            return
        said = [subprocess.run([self.station, "check", "-"], input=text, capture_output=True, text=True) for text in texts]
        wrong = [one.stderr for one in said if one.returncode != 0]
        self.say(step, not wrong, f"{len(texts)} texts {wrong[:1]}")

    def shot(self, page, name):
        if self.folder:
            page.shot(self.folder / f"{name}-{self.size[0]}.png")


def told(text, is_slow=True):
    """A layout as sets, without identities, approaches and the order of entries."""
    it = tomllib.loads(text)
    sides = lambda route, key: tuple(sorted(route.get(key, {}).items()))
    return {
        "section": set(it["section"]), "border": set(it["border"]), "joint": {frozenset(pair) for pair in it["joint"]},
        "track": {(one["name"], one["section"]) for one in it["track"]}, "point": {(one["name"], one["section"]) for one in it["point"]},
        "signal": {(one["name"], one["at"]) for one in it["signal"]}, "station": {it["station"]["name"]},
        "route": {(one["name"], one["entry"], one["exit"], tuple(one["path"]), sides(one, "points"), sides(one, "flank"), one.get("aspect", "proceed") if is_slow else "")
                  for one in it.get("route", [])},
    }


def whole(text):
    """All of a layout that is chosen by hand, identities, approaches and extra conflicts with it."""
    it = tomllib.loads(text)
    chosen = {(one["name"], frozenset(one.get("approach", [])), frozenset(one.get("extra", []))) for one in it.get("route", [])}
    ids = {(one["name"], one["id"]) for kind in ("point", "signal", "detector") for one in it[kind]} | {(it["station"]["name"], it["station"]["id"])}
    return {**told(text), "chosen": chosen, "id": ids, "detector": {(one["name"], tuple(one["sections"])) for one in it["detector"]}}


def example(name):
    return (TOP / "examples" / f"{name}.toml").read_text()


# ---- by the mouse

def mouse(page, report):
    draw_halden(page, report)
    undo_all(page, report)
    page.anew()
    draw_neustadt(page, report)


def draw_halden(page, report):
    report.shot(page, "empty")
    page.press("r")
    page.drag((0, 3), (30, 3))
    page.at(9, 3)
    page.at(18, 6)
    page.move(21, 3)
    report.shot(page, "rubber")
    page.at(21, 3)
    page.press("Escape")
    page.drag((12, 6), (11, 7))
    page.drag((18, 6), (19, 7))
    page.press("0", "b")
    page.named({"West": (0, 3), "East": (30, 3)}, 1)
    page.press("s")
    page.move(8, 3 + EAST)
    report.shot(page, "ghost")
    page.named({"A": (8, 3 + EAST), "F": (22, 3 + WEST), "N1": (20, 3 + EAST), "N2": (17, 6 + EAST), "P1": (10, 3 + WEST), "P2": (13, 6 + WEST)}, 1)
    page.press("j")
    page.at(3, 3)
    page.at(27, 3)
    page.press("v")
    page.named({"GBW": (1.5, 3), "GAW": (5.5, 3), "G1": (15, 3), "G2": (15, 6), "GAE": (24.5, 3), "GBE": (28.5, 3)})
    page.station("HALDEN")
    page.press("Escape", "0")
    page.move(5, 8)
    report.say("Halden is sound", page.said() == "ok: 6 signals, 4 points, 8 sections, 8 routes", f"{page.actions} actions, {page.said()}")
    report.same("Halden as in examples/", told(example("halden")), told(page.text()))
    report.checked("Halden by the program", [page.text()])
    report.shot(page, "halden")
    page.row("#d-routes", "A-N1")
    report.shot(page, "halden-route")
    page.move(5, 8)


def undo_all(page, report):
    text, changes = page.text(), page.tell("past.length")
    while page.tell("past.length"):
        page.control("z")
    nothing = page.tell("Object.keys(drawing.rails).length")
    while page.tell("future.length"):
        page.control("y")
    report.say("all is undone, and redone as the same", nothing == 0 and page.text() == text, f"{changes} changes")
    report.say("Halden opens again", page.again() == "", page.again())


def draw_neustadt(page, report):
    began = page.actions
    page.tell("(view = {x: -U, y: -U, w: 47 * U, h: 17 * U}, paint(), by('d-svg').focus())")
    page.press("r")
    page.drag((0, 4), (42, 4))
    page.drag((0, 8), (44, 8))
    page.line((9, 4), (11, 2), (29, 2), (31, 4))
    page.drag((7, 4), (11, 8))
    page.drag((33, 4), (37, 8))
    page.line((13, 8), (17, 12), (23, 12), (27, 8))
    page.drag((15, 10), (25, 10))
    page.drag((17, 12), (16, 13))
    page.drag((23, 12), (24, 13))
    page.line((29, 8), (32, 11), (42, 11))
    page.press("b")
    page.named({"West1": (0, 4), "West2": (0, 8), "East1": (42, 4), "East2": (44, 8), "South": (42, 11)}, 1)
    page.press("s")
    page.named({"A1": (6, 4 + EAST), "A2": (10, 8 + EAST), "F1": (34, 4 + WEST), "F2": (38, 8 + WEST), "N1": (30, 4 + EAST), "N2": (26, 8 + EAST),
                "N3": (24, 10 + EAST), "N4": (22, 12 + EAST), "N5": (28, 2 + EAST), "Q1": (10, 4 + WEST), "Q2": (14, 8 + WEST), "Q3": (16, 10 + WEST),
                "Q4": (18, 12 + WEST), "Q5": (12, 2 + WEST), "Q15": (8, 4 + WEST), "Z2": (36, 8 + EAST), "Y2": (30, 8 + WEST), "V1": (38, 4 + EAST),
                "V2": (41, 8 + EAST), "G": (30.25, 8.75), "N34": (26.25, 9.25), "Q34": (14.25, 8.75)}, 1)
    page.press("j")
    for place in ((3, 4), (3, 8), (9, 6), (32, 4), (35, 6), (28, 8)):
        page.at(*place)
    page.press("v")
    page.named({"P11": (7, 4), "P12": (9, 4), "P21": (11, 8), "P23": (13, 8), "P24": (15, 10), "P25": (17, 12), "P39": (31, 4), "P31": (33, 4), "P33": (27, 8),
                "P34": (25, 10), "P35": (23, 12), "P37": (29, 8), "P32": (37, 8)})
    page.named({"GBW1": (1.5, 4), "GAW1": (4.5, 4), "GBW2": (1.5, 8), "GAW2": (6.5, 8), "G11": (6.5, 4), "G12": (9.5, 4), "G21": (12, 8), "G24": (14.5, 9.5),
                "G1": (20, 4), "G2": (20, 8), "G3": (20.5, 10), "G4": (20, 12), "G5": (20, 2), "G39": (31.5, 4), "G31": (32.5, 4), "G33": (27.5, 8),
                "G34": (25.5, 9.5), "G37": (28.5, 8), "G32": (37.5, 8), "GAE1": (36, 4), "GBE1": (40, 4), "GAE2": (39.5, 8), "GBE2": (42.5, 8), "GAB": (36, 11),
                "GM2": (33, 8)})
    page.station("NEUSTADT")
    page.press("Escape", "0")
    page.move(2, 13)
    report.say("Neustadt is sound", page.said() == "ok: 22 signals, 13 points, 25 sections, 41 routes", f"{page.actions - began} actions, {page.said()}")
    report.same("Neustadt as in examples/", told(example("neustadt")), told(page.text()))
    report.checked("Neustadt by the program", [page.text()])
    report.shot(page, "neustadt")
    page.row("#d-routes", "A1-N3")
    report.shot(page, "neustadt-route")
    report.say("Neustadt opens again", page.again() == "", page.again())


# ---- by the keyboard alone

def keyboard(page, report):
    page.tell("(by('d-svg').focus(), cursor = '0,3', paint())")
    go = lambda way, count: page.press(*[way] * count)
    page.press("r", "Enter")
    go("right", 14)
    page.press("Enter", "Enter")
    go("left", 9)
    page.press("Enter")
    go("down", 2)
    go("right", 9)
    page.press("Enter", "Enter", "b", "Enter")
    page.write("E2")
    go("up", 2)
    page.press("Enter")
    page.write("E1")
    go("left", 14)
    page.press("Enter")
    page.write("W")
    page.press("s")
    go("right", 4)
    page.press("Enter")
    page.write("S1")
    page.press(".")
    go("right", 4)
    page.press("Enter")
    page.write("S3")
    page.press("j")
    go("down", 2)
    page.press("Enter", "0")
    report.say("by keys: a route is impossible, and a note says why", any("It prevents" in row for row in page.rows()), page.rows())
    page.row("#d-faults", "It prevents")
    report.shot(page, "keyboard-why")
    page.press("p", "f", "Enter")
    page.write("S4")
    report.say("by keys: the note's button puts the signal", page.said() == "ok: 3 signals, 1 points, 4 sections, 4 routes", f"{page.actions} presses, {page.said()}")
    small = told(example("small"))
    mine = told(page.text())
    report.say("by keys: the routes of examples/small.toml", {route[1:3] for route in small["route"]} <= {route[1:3] for route in mine["route"]}, mine["route"])
    page.press("v", "/", "down", " ")
    report.say("by keys: a route is left out", "3 routes" in page.said(), page.said())
    report.shot(page, "keyboard")


# ---- what is chosen by hand

def chosen(page, report):
    page.tell(f"load({json.dumps(example('halden'))})")
    page.click("#d-routes li:nth-child(2) b")
    fill = lambda words, text: (page.tell(f"[...document.querySelectorAll('#d-fields input')].find(of => of.ariaLabel === '{words}').select()"), page.write(text))
    choose = lambda words, value: page.tell(f"(() => {{ const of = [...document.querySelectorAll('#d-fields select')].find(of => of.ariaLabel === '{words}');"
                                            f" of.value = [...of.options].find(one => one.textContent === '{value}').value; of.dispatchEvent(new Event('change')); }})()")
    fill("name", "siding")
    choose("aspect", "proceed")
    fill("approach", "GAW")
    choose("not with", "N1-East")
    report.shot(page, "chosen-route")
    page.click("#d-routes li:nth-child(3) input")
    page.tell("(chosen = {kind: 'point', key: read.where.point.get('W1')}, paint())")
    page.click("#d-fields .d-tick input")
    routes = {one["name"]: one for one in tomllib.loads(page.text())["route"]}
    one = routes.get("siding", {})
    kept = one.get("approach") == ["GAW"] and one.get("extra") == ["N1-East"] and "aspect" not in one and routes["N1-East"]["extra"] == ["siding"] and "F-P2" not in routes
    report.say("chosen: it stands in the file", kept and routes["A-N1"]["aspect"] == "slow", one)
    report.say("chosen: it is kept when the file is opened again", page.again() == "")
    drag_and_room(page, report)


def drag_and_room(page, report):
    x, y = page.tell("spot(drawing.signals.find(one => one.name === 'N1').at)")
    changes = page.tell("past.length")
    page.press("v")
    page.drag((x - 0.48, y + 0.48), (x - 2.48, y + 0.48), (x - 4.48, y + 0.48))
    moved = page.tell("spot(drawing.signals.find(one => one.name === 'N1').at)")
    report.say("a signal is dragged along its rail, in one change", moved == [x - 4, y] and page.tell("past.length") == changes + 1, moved)
    page.control("z")
    routes, width = page.tell("[table.kept.map(one => one.name + one.path).join(), Math.max(...[...read.kinds.keys()].map(key => spot(key)[0]))]")
    page.tell(f"(cursor = '{x - 3},{y}', hover = null, by('d-svg').focus(), paint())")
    page.press("i", "i")
    report.say("room is made, and no route changes", page.tell("[table.kept.map(one => one.name + one.path).join(), Math.max(...[...read.kinds.keys()].map(key => spot(key)[0]))]") == [routes, width + 2])
    page.press("0", "e")
    changes, rails = page.tell("[past.length, Object.keys(drawing.rails).length]")
    page.drag((x - 2.5, y), (x - 6.5, y))
    fewer = page.tell("Object.keys(drawing.rails).length")
    report.say("rails are erased by a drag, in one change", fewer < rails - 2 and page.tell("past.length") == changes + 1, f"{rails - fewer} rails")
    report.shot(page, "erased")
    page.control("z")
    took = page.tell("(() => { const began = performance.now(); for (let count = 0; count < 10; count++) { refresh(); paint(); } return (performance.now() - began) / 10; })()")
    report.say("a change is worked out and painted", took < 1000, f"{took:.0f} ms")


# ---- what is in sight

def view(page, report):
    page.tell(f"load({json.dumps(example('halden'))})")
    was = page.tell("({...view})")
    [(x, y)] = page.pixels((10, 0))
    wheel = lambda pixels, shift: (page.call("Input.dispatchMouseEvent", type="mouseWheel", x=x, y=y, deltaX=0, deltaY=pixels, modifiers=shift), time.sleep(0.3))
    wheel(-300, 0)
    zoomed = page.tell("({...view})")
    wheel(300, 8)
    slid = page.tell("view.x")
    page.call("Input.dispatchKeyEvent", type="keyDown", key=" ", text=" ")
    for kind, to in (("mousePressed", 600), ("mouseMoved", 700), ("mouseReleased", 700)):
        page.mouse(kind, to, 200)
    page.call("Input.dispatchKeyEvent", type="keyUp", key=" ")
    moved = page.tell("view.x")
    page.press("0")
    report.say("zoom, sliding, moving the paper, fit", zoomed["w"] < was["w"] and slid > zoomed["x"] and moved < slid and page.tell("view.w") == was["w"], [was["w"], zoomed["w"], slid, moved])
    sections = page.tell("read.l.section")
    for kind, name in (("border", "West"), ("point", "W1"), ("section", "G1")):
        page.named({f"N-{name}": page.tell(f"spot(read.placeOf('{kind}', '{name}'))")})
    routes = page.tell("table.kept.map(one => one.name)")
    report.say("names by double click, in their places", page.tell("read.l.section") == ["N-G1" if it == "G1" else it for it in sections] and "P1-N-West" in routes, routes)
    text = page.text()
    page.click("#d-new")
    time.sleep(0.3)
    page.click("#d-ask button[value=yes]")
    time.sleep(0.3)
    rails = page.tell("Object.keys(drawing.rails).length")
    page.control("z")
    report.say("a new drawing, and undo of it", rails == 0 and page.text() == text)
    page.call("Page.reload")
    time.sleep(2)
    report.say("loaded again, it is what was drawn", page.text() == text)
    page.anew()
    page.at(2, 2)
    [(x, y)] = page.pixels((8, 5))
    for kind in ("mouseMoved", "mousePressed", "mouseReleased"):
        page.call("Input.dispatchMouseEvent", type=kind, x=x, y=y, button="none" if kind == "mouseMoved" else "left", clickCount=0 if kind == "mouseMoved" else 1, modifiers=8)
    report.say("Shift bends it the other way", page.tell("JSON.stringify(read.lines)") == '{"T1":[2,2,5,2,8,5]}', page.tell("JSON.stringify(read.lines)"))


# ---- faults

# The name of a fault, what draws it, where it is to be shown, and how many faults are left once its button was pressed.
LINE = "addPlaces(all, pathBetween('0,3', '12,3', false));"
Fault = collections.namedtuple("Fault", "words script place left")
FAULTS = [
    Fault("none lies opposite", LINE + "addPlaces(all, ['5,3', '5,4', '5,5'])", "5,3", None),
    Fault("crossings aren't built", LINE + "addPlaces(all, ['5,1', '5,2', '5,3', '5,4', '5,5'])", "5,3", None),
    Fault("bends by 90 degrees", "addPlaces(all, ['0,3', '1,3', '1,4', '1,5'])", "1,3", None),
    Fault("a ring of rail", "addPlaces(all, ['2,2', '3,2', '4,3', '4,4', '3,5', '2,5', '1,4', '1,3', '2,2'])", None, 0),
    Fault("isn't at an end of a rail", LINE + "all.borders['4,3'] = 'N'", "4,3", 0),
    Fault("a joint stands at a point", LINE + "addPlaces(all, ['5,3', '6,4', '7,5']); all.marks['5,3'] = {divides: true}", "5,3", 0),
    Fault("a joint stands at an end", LINE + "all.marks['0,3'] = {divides: true}", "0,3", 0),
    Fault("signal S1 stands at no joint", LINE + "all.signals.push({name: 'S1', id: 101, at: '4,3', toward: 0})", "4,3", 0),
    Fault("isn't 1 to 20 of", LINE + "all.borders['0,3'] = 'to the west'", "0,3", 0),
    Fault("the name W is used twice", LINE + "all.borders['0,3'] = 'W'; all.borders['12,3'] = 'W'", "0,3", 0),
    Fault("the name W is used twice", LINE + "all.borders['0,3'] = 'W'; all.station.name = 'W'", "0,3", 0),
    Fault("the id 1 is used twice", LINE + "all.marks['4,3'] = {divides: true}; all.signals.push({name: 'S1', id: 1, at: '4,3', toward: 0})", "4,3", 0),
    Fault("the id of signal S1 isn't", LINE + "all.marks['4,3'] = {divides: true}; all.signals.push({name: 'S1', id: 0, at: '4,3', toward: 0})", "4,3", 0),
    Fault("17 sections: at most 16", "all.detectors.push({name: 'D1', id: 301, sections: []}); addPlaces(all, pathBetween('0,3', '34,3', false));"
          "for (let x = 2; x < 34; x += 2) { all.marks[x + ',3'] = {divides: true}; } all.detectors[0].sections = new Reading(structuredClone(all)).l.section", "33,3", 0),
    Fault("65 sections: at most 64", "for (let y = 0; y < 5; y++) { addPlaces(all, pathBetween('0,' + y * 2, '26,' + y * 2, false)); for (let x = 2; x < 26; x += 2) all.marks[x + ',' + y * 2] = {divides: true}; }", None, None),
    Fault("17 borders: at most 16", "for (let y = 0; y < 9; y++) { addPlaces(all, pathBetween('0,' + y, '4,' + y, false)); all.borders['0,' + y] = 'W' + y; if (y) all.borders['4,' + y] = 'E' + y; }", None, None),
    Fault("33 signals: at most 32", "addPlaces(all, pathBetween('0,3', '40,3', false)); for (let x = 1; x < 34; x++) { all.marks[x + ',3'] = {divides: false};"
          " all.signals.push({name: 'S' + x, id: 100 + x, at: x + ',3', toward: 0}); }", "33,3", None),
    Fault("33 points: at most 32", "addPlaces(all, pathBetween('0,3', '70,3', false)); for (let x = 2; x < 68; x += 2) addPlaces(all, [x + ',3', (x + 1) + ',4']);", None, None),
    Fault("129 tracks: at most 128", "addPlaces(all, pathBetween('0,3', '129,3', false)); for (let x = 1; x < 129; x++) all.marks[x + ',3'] = {divides: false};", None, None),
]


def faults(page, report):
    for fault in FAULTS:
        page.anew()
        page.tell(f"change(all => {{ {fault.script} }})")
        page.tell("fit()")
        found = page.tell(f"read.faults.map(one => ({{text: one.text, at: one.at, fix: Boolean(one.fix)}})).find(one => one.text.includes({json.dumps(fault.words)})) || null")
        rings = page.tell("document.querySelectorAll('#d-over circle.faulty').length")
        is_placed = found and rings > 0 and (fault.place is None and len(found["at"]) > 0 or fault.place in found["at"])
        report.say(f"fault: {fault.words}", is_placed, found or page.rows())
        if fault.left is not None and found:
            page.click("#d-faults li button")
            report.say("  its button mends it", page.tell("read.faults.length") == fault.left, page.rows())
    told_faults(page, report)
    page.anew()
    page.tell("change(all => { addPlaces(all, pathBetween('0,3', '14,3', false)); addPlaces(all, ['4,3', '4,4', '4,5']); addPlaces(all, pathBetween('6,1', '10,5', false)); all.borders['14,3'] = 'the east'; "
              "addPlaces(all, ['17,2', '18,2', '18,3', '18,4']); })")
    page.tell("fit()")
    page.row("#d-faults", "crossings")
    report.shot(page, "faults")


def told_faults(page, report):
    """Faults as the program tells them, each with an entry of a key or a route: each is found in the drawing."""
    page.tell(f"load({json.dumps(example('halden'))})")
    lines = [f"layout fault {number} {word} at {key} {place}" for number, word in ((3, "WrongKind"), (5, "DoubleName"), (7, "Limit"))
             for key in ("section", "track", "point", "border", "joint", "signal", "detector", "route") for place in (1, 2) if (key, place) != ("detector", 2)]
    lines += [f"table fault {number} X at route {route}" for number in range(1, 10) for route in ("A-N1", "P2-West")]
    lost = page.tell(f"{json.dumps(lines)}.filter(line => placeOfFault(line).at.length === 0)")
    report.say("faults that the program tells are found in the drawing", not lost, f"{len(lines)} lines {lost}")


# ---- as a program serves it

class Desk(http.server.BaseHTTPRequestHandler):
    """Plays the program: what the page is to ask, with the answers that it is given here."""
    page, file, known, verdict, asked, running = "", "", "1", None, [], False

    def do_GET(self):
        if self.path == "/":
            return self.give(200, self.page, "text/html; charset=utf-8")
        self.give(200, json.dumps({"file": "mine.toml", "text": type(self).file, "known": type(self).known, "token": "secret", "version": "1.0.0", "running": type(self).running}), "application/json")

    def do_POST(self):
        body = self.rfile.read(int(self.headers["Content-Length"])).decode()
        self.asked.append((self.path, body, self.headers.get("X-Token"), self.headers.get("X-Known")))
        if self.path == "/check":
            return self.give(200, json.dumps({**type(self).verdict(body), "running": type(self).running}), "application/json")
        if self.path == "/save":
            if self.headers.get("X-Known") not in ("anything", type(self).known):
                return self.give(409, "changed meanwhile")
            type(self).file, type(self).known = body, str(int(type(self).known) + 1)
            return self.give(200, type(self).known)
        type(self).running = body == "start"
        self.give(200, "http://127.0.0.1:1/\n" if body == "start" else "stopped")

    def give(self, status, text, kind="text/plain"):
        body = text.encode()
        self.send_response(status)
        for name, value in (("Content-Type", kind), ("Content-Length", str(len(body)))):
            self.send_header(name, value)
        self.end_headers()
        self.wfile.write(body)

    def log_message(self, *_):
        pass


def sound(text):
    return {"status": 0, "out": "ok: what the program says\nno route to border North\n", "err": ""}


def unsound(text):
    return {"status": 1, "out": "", "err": "table fault 6 FlankOpen at route A-N2\nthe path of route A-N2 doesn't use W1.left, which is open\n"}


def double(text):
    return {"status": 1, "out": "", "err": "layout fault 5 DoubleName at point 2\nW2 is used before\n"}


def served(size, report):
    Desk.page, Desk.file, Desk.verdict, Desk.asked = draw_page.page(), example("halden"), staticmethod(sound), []
    server = http.server.ThreadingHTTPServer(("127.0.0.1", 0), Desk)
    threading.Thread(target=server.serve_forever, daemon=True).start()
    page = Page(f"http://127.0.0.1:{server.server_port}/", size)
    settle = lambda: time.sleep(1.2)
    settle()
    by = lambda: page.tell("by('d-by').textContent")
    report.say("served: it says who checked", by() == "checked by station 1.0.0" and page.said() == "ok: what the program says", by())
    report.say("served: what the program tells beyond the page stands there", any("station: no route to border North" in row for row in page.rows()), page.rows())
    report.same("served: Halden is opened and placed", told(example("halden")), told(page.text()))
    report.say("served: each request has the token", all(one[2] == "secret" for one in Desk.asked), len(Desk.asked))
    report.shot(page, "served")
    for verdict, words, place in ((unsound, "FlankOpen", "A"), (double, "DoubleName", None)):
        Desk.verdict = staticmethod(verdict)
        page.tell("change(all => { all.station.id += 1; })")
        settle()
        rings = page.tell("document.querySelectorAll('#d-over circle.faulty').length")
        report.say(f"served: {words} is told and shown at its place", words in page.said() and rings == 1, page.said())
        report.shot(page, f"served-{words}")
    page.click("#d-run")
    report.say("served: it doesn't run with a fault", "can't be run" in page.tell("by('d-hint').textContent"), page.tell("by('d-hint').textContent"))
    Desk.verdict = staticmethod(sound)
    page.tell("change(all => { all.station.id += 1; })")
    settle()
    page.control("s")
    settle()
    report.say("served: it is saved", Desk.file == page.text() and "saved" in page.tell("by('d-hint').textContent"), page.tell("by('d-hint').textContent"))
    Desk.known = "99"
    page.control("s")
    settle()
    report.say("served: a file that changed meanwhile is asked for", page.tell("by('d-ask').open"), page.tell("by('d-ask-head').textContent"))
    report.shot(page, "served-changed")
    page.click("#d-ask button[value=over]")
    settle()
    report.say("served: it is written over", Desk.known == "100", Desk.known)
    page.tell("window.open = () => null")
    page.click("#d-run")
    settle()
    report.say("served: it runs what was checked", ("/run", "start", "secret", None) in Desk.asked and page.tell("by('d-run').textContent") == "Stop it", page.tell("by('d-hint').textContent"))
    server.shutdown()
    server.server_close()
    page.tell("change(all => { all.station.id += 1; })")
    settle()
    report.say("served: a program that is gone", "doesn't answer" in by() and "isn't proved" in by(), by())
    report.say("served: no exception", not page.faults, page.faults[:1])
    page.end()


# ---- layouts without positions

def opened(page, report):
    for file in sorted((TOP / "examples").glob("*.toml")):
        text = file.read_text()
        fault = page.tell(f"load({json.dumps(text)})")
        page.tell("(by('d-svg').focus(), 0)")
        report.say(f"opened: {file.stem}", fault == "", fault)
        if fault:
            continue
        mine, given = whole(page.text()), whole(text)
        report.same("  as it was", {key: given[key] for key in given if key not in ("detector",)}, {key: mine[key] for key in given if key not in ("detector",)})
        report.say("  again as the same", page.again() == "", page.rows())
        report.shot(page, f"opened-{file.stem}")


# ---- random drawings

RANDOM = """(() => {
  let seed = SEED;
  const below = most => { seed = (seed * 1103515245 + 12345) % 2147483648; return Math.floor(seed / 2147483648 * most); };
  const tell = {sound: 0, faulty: 0, same: 0, routes: 0, other: [], texts: []};
  for (let round = 0; round < COUNT; round++) {
    const all = newDrawing(), places = [];
    for (let count = 2 + below(6); count > 0; count--) {
      const from = places.length && below(3) ? places[below(places.length)] : place(below(4), below(8)), [x, y] = spot(from);
      const path = bestPath(all, from, place(x + (below(5) ? 1 : -1) * (2 + below(9)), below(4) ? y + [-3, -2, 0, 2, 3][below(5)] : y), false);
      if (harm(all, path) && below(10)) continue;
      addPlaces(all, path);
      places.push(...path);
    }
    for (const [key, of] of new Reading(all).kinds) {
      if (of.kind === 'rail' && below(3) === 0) all.marks[key] = {divides: below(4) > 0};
      if (of.kind === 'end' && below(3)) all.borders[key] = 'B' + key.replace(',', '-').replace('--', '-m');
      if ((key in all.marks || key in all.borders) && below(2)) for (const way of of.ways) if (below(2)) all.signals.push({name: 'S' + (all.signals.length + 1), id: freeId(101, idsOf(all)), at: key, toward: way});
    }
    drawing = all;
    refresh();
    if (read.faults.length) { tell.faulty++; continue; }
    tell.sound++;
    tell.routes += table.kept.length;
    const text = read.text;
    tell.texts.push(text);
    replace(newDrawing(), []);
    const fault = load(text);
    if (!fault && read.text === text) tell.same++; else tell.other.push([round, fault || 'another text']);
  }
  return tell;
})()"""


def random_drawings(page, report, count):
    tell = {"sound": 0, "faulty": 0, "same": 0, "routes": 0, "other": [], "texts": []}
    for seed in range(1, 100):
        part = page.tell(RANDOM.replace("SEED", str(seed)).replace("COUNT", "50"))
        tell = {key: tell[key] + part[key] for key in tell}
        if tell["sound"] >= count:
            break
    texts = tell.pop("texts")
    report.say("random drawings open again as the same", tell["same"] == tell["sound"] >= count, tell)
    report.checked("random drawings by the program", texts)


# ---- routes that another program derived

DERIVED = """(text => {
  const l = new Toml(text).read(), told = derive(l), sides = list => Object.entries(list).map(one => one.join('=')).join(' ');
  return told.routes.map(one => `${one.name}: ${one.entry} ${one.exit}; path ${one.path.join(' ')}; points ${sides(one.points)}; flank ${sides(one.flank)}; `
    + `approach ${one.approach.join(' ')}; berth ${berthOf(told.site, told.site.portOf.get(one.entry)).join(' ')}; ${one.aspect}\\n`).join('');
})"""


def routes(page, report, cases):
    same, count, other, laid, lacking = 0, 0, [], 0, []
    for file in sorted(cases.glob("*.toml")):
        text, wanted = file.read_text(), file.with_suffix(".routes").read_text()
        derived = page.tell(f"{DERIVED}({json.dumps(text)})")
        same, count = same + (derived == wanted), count + wanted.count("\n")
        if derived != wanted:
            other.append(file.stem)
        fault = page.tell(f"load({json.dumps(text)})")
        laid += fault == ""
        if fault and "joined to one another" not in fault:
            lacking.append(file.stem)
    report.say("routes as another program derived them", not other and same > 0, f"{same} layouts, {count} routes {other}")
    report.say("layouts without positions are placed", laid > 0.95 * same and not lacking, f"{laid} layouts; no place for {lacking}")


def main():
    words = argparse.ArgumentParser(description=__doc__, formatter_class=argparse.RawDescriptionHelpFormatter)
    words.add_argument("--to", type=pathlib.Path, help="a folder for pictures of the page")
    words.add_argument("--size", default="1280x720", type=lambda text: tuple(map(int, text.split("x"))))
    words.add_argument("--cases", type=pathlib.Path, help="layouts with derived routes")
    words.add_argument("--station", help="the program, which is to check what the page accepts")
    words.add_argument("--count", type=int, default=200, help="how many random drawings without faults")
    words.add_argument("kinds", nargs="*", default=["mouse", "keyboard", "chosen", "view", "faults", "served", "opened", "random", "routes"])
    given = words.parse_intermixed_args()
    if given.to:
        given.to.mkdir(parents=True, exist_ok=True)
    report = Report(given.to, given.size, given.station)
    with tempfile.TemporaryDirectory() as folder:
        file = pathlib.Path(folder, "draw.html")
        file.write_text(draw_page.page())
        for kind in given.kinds:
            work(kind, f"file://{file}", given, report)
    print(table(("step", "", ""), report.rows))
    sys.exit(any(row[1] != "came" for row in report.rows))


def work(kind, address, given, report):
    if kind == "served":
        return served(given.size, report)
    if kind == "routes" and not given.cases:
        return None
    does = {"mouse": mouse, "keyboard": keyboard, "chosen": chosen, "view": view, "faults": faults, "opened": opened,
            "random": lambda page, report: random_drawings(page, report, given.count),
            "routes": lambda page, report: routes(page, report, given.cases)}[kind]
    page = Page(address, given.size)
    try:
        does(page, report)
    except (RuntimeError, TimeoutError, TypeError) as fault:
        report.say(kind, False, fault)
        report.shot(page, f"{kind}-lacks")
    report.say(f"{kind}: no exception in the page", not page.faults, [it.get("exception", {}).get("description", "")[:300] for it in page.faults[:1]])
    page.end()


if __name__ == "__main__":
    main()
