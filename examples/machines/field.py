#!/usr/bin/env python3
"""Plays the field equipment of a station: the lamps of signals, the motors and contacts of points, and the contacts of sections.
It starts the controller of each node that is named (of all, where none is), and is joined to it by its standard input and output.

    python3 field.py STATION LAYOUT ADDRESSES [--stop-file=FILE] [NODE ..]

With a stop file all controllers end where it is there, and then the program does. A person or a script moves a train by lines on standard input: `occupy SECTION` and `clear SECTION`. `restart NODE` kills a controller,
and starts it anew; `stop` ends all. What changes is told on standard output: `S1 proceed`, `P1 driven left`, `P1 moves`, `P1 left`,
`P1 undriven`, `GA occupied`.

Equipment keeps four rules. A line that isn't whole is no line. A line is in force before it is answered `done`. From the moment
behind `until` on a lamp shows stop, and a motor is off, with no further line. Where the controller has ended, so it is at once.
"""
import os
import selectors
import subprocess
import sys
import time
import tomllib

# how long a motor needs from one end to the other, in milliseconds
TURNING = 2000


def reading():
    """The machine's clock in milliseconds, which is also that of the controllers."""
    return int(time.monotonic() * 1000)


class Controller:
    """A controller's process, and the lines to and from it."""

    def __init__(self, name, program, layout, addresses, stop):
        self.name, self.given = name, (program, "node", layout, name, "--addresses", addresses, *stop)
        self.start()

    def start(self):
        self.rest = b""
        words = [*self.given, "--clock", str(reading())]
        self.process = subprocess.Popen(words, stdin=subprocess.PIPE, stdout=subprocess.PIPE)
        os.set_blocking(self.process.stdout.fileno(), False)
        self.tell_contacts()

    def tell_contacts(self):
        """How each contact stands: a controller waits for this as it begins."""

    def tell(self, line):
        try:
            self.process.stdin.write(line.encode() + b"\n")
            self.process.stdin.flush()
        except OSError:
            pass

    def hear(self):
        """Takes the whole lines that have come. Where none comes any more the equipment rests."""
        some = self.process.stdout.read()
        if some == b"":
            self.rest_now()
            return False
        *lines, self.rest = (self.rest + (some or b"")).split(b"\n")
        for line in lines:
            number, at, moment, *order = line.decode().split()
            self.put_in_force(order)
            self.tell(f"done {number}")
        return True


class Lamp(Controller):
    shown, until = "stop", 0

    def put_in_force(self, order):
        # ["show", ASPECT] or ["show", ASPECT, "until", MOMENT]
        self.show(order[1])
        self.until = int(order[3]) if len(order) == 4 else 0

    def show(self, aspect):
        if aspect != self.shown:
            self.shown = aspect
            print(self.name, aspect, flush=True)

    def rest_now(self):
        self.show("stop")

    def go_on(self, now):
        if self.shown != "stop" and now >= self.until:
            self.show("stop")


class Point(Controller):
    lies, driven, until, arrives = "left", None, 0, 0

    def tell_contacts(self):
        self.tell(f"reach {self.lies}")

    def put_in_force(self, order):
        # ["drive", "none"] or ["drive", SIDE, "until", MOMENT]
        side = order[1] if order[1] != "none" else None
        # an order that renews the last one lets the motor go on
        starts = side not in (None, self.driven, self.lies)
        self.drive(side)
        self.until = int(order[3]) if len(order) == 4 else 0
        if starts:
            self.reach("none")
            self.arrives = reading() + TURNING

    def drive(self, side):
        if side != self.driven:
            self.driven = side
            print(self.name, f"driven {side}" if side else "undriven", flush=True)

    def reach(self, where):
        if where != self.lies:
            self.lies = where
            print(self.name, where if where != "none" else "moves", flush=True)
            self.tell(f"reach {where}")

    def rest_now(self):
        self.drive(None)

    def go_on(self, now):
        if self.driven is not None and now >= self.until:
            self.drive(None)
        if self.driven is not None and now >= self.arrives:
            self.reach(self.driven)


class Detector(Controller):
    def __init__(self, sections, *given):
        self.stands = dict.fromkeys(sections, "clear")
        super().__init__(*given)

    def tell_contacts(self):
        for section, how in self.stands.items():
            self.tell(f"{how} {section}")

    def occupy(self, how, section):
        self.stands[section] = how
        print(section, "occupied" if how == "occupy" else "clear", flush=True)
        self.tell(f"{how} {section}")

    def put_in_force(self, order):
        """It has no lines."""

    def rest_now(self):
        """It has nothing that rests."""

    def go_on(self, now):
        """Nothing of it goes by time."""


def controllers_of(program, layout, addresses, stop, wanted):
    with open(layout, "rb") as file:
        told = tomllib.load(file)
    given = program, layout, addresses, stop
    found = [(Lamp, (it["name"],)) for it in told.get("signal", [])]
    found += [(Point, (it["name"],)) for it in told.get("point", [])]
    found += [(Detector, (it["sections"], it["name"])) for it in told.get("detector", [])]
    return [kind(*words, *given) for kind, words in found if not wanted or words[-1] in wanted]


def command(what, name, controllers, heard):
    """A line of standard input: where a train is, or which controller starts anew."""
    for it in controllers:
        if what in ("occupy", "clear") and isinstance(it, Detector) and name in it.stands:
            it.occupy(what, name)
        if what == "restart" and it.name == name:
            it.process.kill()
            it.rest_now()
            if it.process.stdout in heard.get_map():
                heard.unregister(it.process.stdout)
            it.start()
            heard.register(it.process.stdout, selectors.EVENT_READ, it)


def main(program, layout, addresses, *words):
    stop = [it for it in words if it.startswith("--stop-file=")]
    controllers = controllers_of(program, layout, addresses, stop, [it for it in words if it not in stop])
    heard = selectors.DefaultSelector()
    for it in controllers:
        heard.register(it.process.stdout, selectors.EVENT_READ, it)
    heard.register(sys.stdin, selectors.EVENT_READ, None)
    rest = b""
    while True:
        for key, _ in heard.select(0.005):
            if key.data is None:
                said = os.read(sys.stdin.fileno(), 65536)
                *lines, rest = (rest + said).split(b"\n")
                for words in (line.decode().split() for line in lines):
                    if words == ["stop"]:
                        return
                    if len(words) == 2:
                        command(*words, controllers, heard)
                if not said:
                    return
            elif not key.data.hear():
                heard.unregister(key.fileobj)
        for it in controllers:
            it.go_on(reading())
        if stop and all(it.process.poll() is not None for it in controllers):
            return


if __name__ == "__main__":
    main(*sys.argv[1:])
