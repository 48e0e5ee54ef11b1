#!/usr/bin/env python3
"""Writes the lists of events in which a station takes longest to recover, because old copies bring what is said in the first good round.

    old_copies.py           writes those of the folder data of stored_runs anew
    old_copies.py FOLDER    writes them there
    old_copies.py --rounds  tells of each list behind which good rounds the ends of its slow link change

Such a list is played twice by nodes that are made anew in between, so they say the same bytes twice. What is delivered by hand the first
time isn't tried by a flow yet. So in the first good round, in the order in which it was said, it brings what is said in this very round.
What was lost the first time is missed there, and comes one round later, when both ends have asked and take nothing any more.

The bytes are those of a model that stands here: of links, of how controllers begin, and of the round of a flow. It knows no route, and what
the interlocking gives is given here by hand. `station sim` plays the lists, and its answers stand in stored_runs."""
import pathlib
import struct
import sys

DATA = pathlib.Path(__file__).resolve().parent.parent / 'crates/stored_runs/data'
STANDARD = (0x67452301, 0xefcdab89, 0x98badcfe, 0x10325476)
TURN = 1 << 32
LIFE, QUIET, BEAT, BAG = 1800, 6000, 300, 2000
REQUEST, RESPONSE, ASK, ANSWER, BYE, HEARTBEAT, DATA_PDU, AGAIN = 6200, 6201, 6212, 6213, 6216, 6220, 6240, 6241
VERSION = b'0303' + struct.pack('<H', 20) + bytes(8)
PROTOCOLS = {'signal': 0x30, 'point': 0x40, 'detector': 0x20}
MOVE, ASPECT, OCCUPANCY, POSITION, SHOWN = 1, 1, 7, 0x0b, 3
INITIALISE, BEGIN, COMPLETED, CHECK, VERSIONS = 0x21, 0x22, 0x23, 0x24, 0x25
STOP, PROCEED, RIGHT, LEFT = 1, 4, 1, 2


# ---- bytes

def code(message, key):
    """The first 8 bytes of MD4, begun from a key."""
    steps = ((lambda x, y, z: x & y | ~x & z, 0, range(16), (3, 7, 11, 19)),
             (lambda x, y, z: x & y | x & z | y & z, 0x5a827999, [i // 4 + i % 4 * 4 for i in range(16)], (3, 5, 9, 13)),
             (lambda x, y, z: x ^ y ^ z, 0x6ed9eba1, (0, 8, 4, 12, 2, 10, 6, 14, 1, 9, 5, 13, 3, 11, 7, 15), (3, 9, 11, 15)))
    state = list(key)
    padded = message + b'\x80' + bytes((55 - len(message)) % 64) + struct.pack('<Q', len(message) * 8)
    for start in range(0, len(padded), 64):
        words, now = struct.unpack('<16I', padded[start:start + 64]), list(state)
        for mixed, added, order, turns in steps:
            for i, k in enumerate(order):
                a, b, c, d = (now[(j - i) % 4] for j in range(4))
                word = (a + mixed(b, c, d) + words[k] + added) % TURN
                now[-i % 4] = (word << turns[i % 4] | word >> 32 - turns[i % 4]) % TURN
        state = [(old + new) % TURN for old, new in zip(state, now)]
    return struct.pack('<2I', *state[:2])


def telegram(kind, number, sender, receiver, payload=b''):
    names = b''.join(name.encode().ljust(20, b'_') for name in (sender, receiver))
    return struct.pack('<BH', PROTOCOLS[kind], number) + names + payload


def item(payload):
    return struct.pack('<H', len(payload)) + payload


class Pdu:
    def __init__(self, raw):
        _, self.kind, self.receiver, self.sender, self.number, self.confirms, self.stamp, self.returned = struct.unpack('<2H6I', raw[:28])
        self.payload = raw[28:-8]


# ---- one end of a link

class End:
    UP = ('up', 'asked', 'answered')

    def __init__(self, own, partner, key, is_client, now, number):
        self.own, self.partner, self.key, self.is_client, self.number = own, partner, key, is_client, number
        self.state, self.closed, self.items, self.out = 'quiet', now, [], []
        self.expected = self.confirmed = self.heard = self.since = self.last = self.begun = 0

    def look_at_clock(self, now):
        if self.state in self.UP + ('begun',) and now >= self.since + LIFE:
            self.leave(self.since + LIFE)
        if self.state == 'quiet' and now >= self.closed + QUIET:
            self.state = 'down'

    def leave(self, at):
        self.state, self.closed, self.items = 'quiet', at, []

    def is_up(self, now):
        self.look_at_clock(now)
        return self.state in self.UP

    def say(self, now, kind, payload=b''):
        head = (36 + len(payload), kind, self.partner, self.own, self.number % TURN)
        taken = (0, now % TURN, 0) if kind == REQUEST else ((self.expected - 1) % TURN, now % TURN, self.heard)
        raw = struct.pack('<2H6I', *head, *taken) + payload
        self.out.append(raw + code(raw, self.key))
        self.number, self.last = self.number + 1, now

    def give(self, now, payload):
        assert self.is_up(now)
        self.items.append([self.number, payload])
        self.say(now, DATA_PDU, item(payload))

    def tick(self, now):
        self.look_at_clock(now)
        if self.state in self.UP and now - self.last >= BEAT:
            self.say(now, HEARTBEAT)
        if self.is_client and self.state == 'down':
            self.state, self.since, self.confirmed, self.begun = 'begun', now, self.number, (self.number, now)
            self.say(now, REQUEST, VERSION)

    def take(self, now, pdu):
        self.expected, self.heard, self.confirmed = pdu.number + 1, pdu.stamp, pdu.confirms
        self.since = now - (now - pdu.returned) % TURN
        self.items = [one for one in self.items if (one[0] - self.confirmed - 1) % TURN < TURN // 2]

    def receive(self, now, raw):
        """What is taken of it; no list here closes an end by what comes."""
        self.look_at_clock(now)
        pdu = Pdu(raw)
        if self.state == 'quiet':
            return []
        if self.state == 'down' or pdu.kind == REQUEST:
            return self.begin(now, pdu)
        if self.state == 'begun' and self.is_client:
            return self.come_up(now, pdu)
        is_in_range = (pdu.number - self.expected) % TURN <= 200
        is_timely = (now - pdu.returned) % TURN <= now - self.since
        is_confirming = (pdu.confirms - self.confirmed) % TURN <= (self.number - 1 - self.confirmed) % TURN
        if not (is_in_range and is_timely and is_confirming) or self.state == 'asked' and pdu.kind != ANSWER:
            return []
        assert pdu.kind not in (RESPONSE, BYE) and (pdu.kind == ANSWER) <= (self.state == 'asked')
        if pdu.kind != ANSWER and pdu.number != self.expected % TURN:
            self.say(now, ASK)
            self.state = 'asked'
            return []
        self.take(now, pdu)
        if pdu.kind == ANSWER:
            self.state = 'answered'
        elif self.state == 'begun' or pdu.kind in (HEARTBEAT, DATA_PDU):
            self.state = 'up'
        if pdu.kind == ASK:
            self.answer(now)
        return [pdu.payload[2:]] if pdu.kind in (DATA_PDU, AGAIN) else []

    def begin(self, now, pdu):
        if self.is_client or self.state != 'down' or pdu.kind != REQUEST:
            assert self.state == 'down' or self.begun == (pdu.number, pdu.stamp)
            return []
        self.state, self.since, self.confirmed, self.begun = 'begun', now, self.number, (pdu.number, pdu.stamp)
        self.expected, self.heard = pdu.number + 1, pdu.stamp
        self.say(now, RESPONSE, VERSION)
        return []

    def come_up(self, now, pdu):
        if pdu.kind == RESPONSE and (pdu.confirms, pdu.returned) == self.begun:
            self.take(now, pdu)
            self.state = 'up'
            self.say(now, HEARTBEAT)
        return []

    def answer(self, now):
        self.say(now, ANSWER)
        for one in self.items:
            one[0] = self.number
            self.say(now, AGAIN, item(one[1]))
        self.say(now, HEARTBEAT)


# ---- a station

class Controller:
    def __init__(self, name, number, kind, sections=()):
        self.name, self.number, self.kind, self.sections = name, number, kind, sections
        self.indicated, self.lies, self.driven = STOP, LEFT, None


class Station:
    """Its ends, what they said, and the lines of the list. `said` has the true time, the sender, the receiver, the bytes and whether they are
    lost."""

    def __init__(self, name, controllers, key=STANDARD):
        self.name, self.key, self.controllers = name, key, {one.name: one for one in controllers}
        self.nodes = [name, *self.controllers]
        self.time, self.clocks = 0, dict.fromkeys(self.nodes, 0)
        self.said, self.passed, self.lines, self.occupied = [], 0, [], set()
        self.clients, self.servers, self.stages = {}, {}, {}
        for node in self.nodes:
            self.made_anew(node, 0)

    def now(self, node):
        return self.clocks[node] // 1000

    def made_anew(self, node, number):
        now = self.now(node)
        if node == self.name:
            self.clients = {it.name: End(1, it.number, self.key, True, now, number) for it in self.controllers.values()}
            self.stages = dict.fromkeys(self.controllers, 0)
        else:
            self.servers[node] = End(self.controllers[node].number, 1, self.key, False, now, number)
            self.controllers[node].indicated = STOP

    def note(self, text):
        self.lines += [('# ' + line).rstrip() for line in text.strip().split('\n')]

    def line(self, text):
        self.lines.append(text)

    def hand_out(self, node, controller):
        """What an end has said goes to the other one."""
        end, receiver = (self.clients[controller], controller) if node == self.name else (self.servers[node], self.name)
        told, end.out = end.out, []
        self.said += [[self.time, node, receiver, raw, False] for raw in told]
        return told

    # -- events, each with its line

    def pass_time(self, millis):
        self.line(f'time {millis * 1000}')
        self.go_on(millis)

    def go_on(self, millis):
        self.time += millis * 1000
        self.clocks = {node: clock + millis * 1000 for node, clock in self.clocks.items()}

    def restart(self, node, clock=0, number=0):
        self.line(f'restart {node} {clock} {number}')
        self.clocks[node] = clock * 1000
        self.made_anew(node, number)

    def lose(self, raw):
        self.line(f'lose {raw.hex()}')
        next(one for one in self.said if one[3] == raw and not one[4])[4] = True

    def deliver(self, node, raw):
        """What comes of it at once."""
        self.line(f'deliver {node} {raw.hex()}')
        assert self.is_in_bag(raw)
        return self.come(node, raw)

    def tick(self, node):
        """What is said, by its receiver."""
        self.line(f'tick {node}')
        before = len(self.said)
        self.tick_silently(node)
        return {receiver: raw for _, _, receiver, raw, _ in self.said[before:]}

    def occupy(self, section):
        self.line(f'occupy {section}')
        self.occupied.add(section)

    def reach(self, point, side):
        """A driven point comes to lie, and reports it."""
        self.line(f'reach {point} {("right", "left")[side - RIGHT]}')
        one, now = self.controllers[point], self.now(point)
        assert one.driven == side
        one.lies, one.driven = side, None
        self.servers[point].give(now, telegram('point', POSITION, point, self.name, bytes([side])))
        return self.hand_out(point, point)

    def give(self, controller, number, payload):
        """The interlocking gives an item, by a line that stands already."""
        self.clients[controller].give(self.now(self.name), telegram(self.controllers[controller].kind, number, self.name, controller, payload))
        return self.hand_out(self.name, controller)[-1]

    def give_aspect(self, signal, aspect):
        return self.give(signal, ASPECT, bytes([aspect]) + b'\xff' * 17)

    # -- what comes of them

    def is_in_bag(self, raw):
        return any(one[3] == raw and not one[4] and self.time - one[0] <= BAG * 1000 for one in self.said)

    def come(self, node, raw):
        now = self.now(node)
        if node != self.name:
            for payload in self.servers[node].receive(now, raw):
                self.act(node, now, payload)
            return self.hand_out(node, node)
        for end in self.clients.values():
            end.look_at_clock(now)
        controller = next(it for it in self.controllers.values() if it.number == Pdu(raw).sender)
        name, end = controller.name, self.clients[controller.name]
        was_begun = end.state == 'begun'
        payloads = end.receive(now, raw)
        if was_begun and end.state == 'up':
            self.stages[name] = 0
            end.give(now, telegram(controller.kind, CHECK, self.name, name, b'\1'))
        for payload in payloads:
            number, = struct.unpack('<H', payload[1:3])
            if number == VERSIONS:
                end.give(now, telegram(controller.kind, INITIALISE, self.name, name))
            if number == COMPLETED:
                self.stages[name] = 1
        return self.hand_out(self.name, name)

    def act(self, node, now, payload):
        """A controller acts on what its end has taken."""
        one, end = self.controllers[node], self.servers[node]
        number, = struct.unpack('<H', payload[1:3])
        give = lambda number, payload=b'', sender=node: end.give(now, telegram(one.kind, number, sender, self.name, payload))
        if number == CHECK:
            give(VERSIONS, b'\2\1')
        elif number == INITIALISE:
            give(BEGIN)
            if one.kind == 'signal':
                give(SHOWN, bytes([one.indicated]) + b'\xff' * 17)
            if one.kind == 'point':
                give(POSITION, bytes([one.lies]))
            for section in one.sections:
                give(OCCUPANCY, bytes([1 + (section in self.occupied)]), section)
            give(COMPLETED)
        elif one.kind == 'signal':
            one.indicated = payload[43]
            give(SHOWN, payload[43:])
        elif payload[43] == one.lies:
            give(POSITION, payload[43:])
        else:
            one.driven = payload[43]

    def tick_silently(self, node):
        for name in self.controllers if node == self.name else [node]:
            end = self.clients[name] if node == self.name else self.servers[node]
            end.tick(self.now(node))
            self.hand_out(node, name)

    def good_round(self):
        """A round of a flow; no point is driven in it."""
        before = len(self.said)
        self.go_on(10)
        for _, _, receiver, raw, is_lost in self.said[self.passed:before]:
            if not is_lost and self.is_in_bag(raw):
                self.come(receiver, raw)
        self.passed = before
        for node in self.nodes:
            self.tick_silently(node)

    # -- links that come up by hand

    def come_up(self, names):
        """Each in turn, and in no time."""
        asked = self.tick(self.name)
        for name in names:
            node, other, pending = name, self.name, [asked[name]]
            while pending:
                pending = [told for raw in pending for told in self.deliver(node, raw)]
                node, other = other, node

    def come_up_to_request(self, name):
        """The end of a controller misses a heartbeat, asks, and takes of the answer all but a second heartbeat. It answers the check of the
        version, and the interlocking asks for the initialisation. That second heartbeat, and what asks."""
        response, = self.deliver(name, self.tick(self.name)[name])
        _, check = self.deliver(self.name, response)
        asked, = self.deliver(name, check)
        answer, check, heartbeat = self.deliver(self.name, asked)
        self.deliver(name, answer)
        version, = self.deliver(name, check)
        request, = self.deliver(self.name, version)
        return heartbeat, request

    def live_before(self, interlocking, node, number):
        """A former life of two nodes, in which each misses what the other says: the clocks and numbers are those that they will have."""
        self.restart(interlocking, 7800, 5)
        self.restart(node, 7800, number)
        self.pass_time(6000)
        told = self.come_up_to_request(node)
        self.miss_each_other(node, *told)
        return told

    def live_anew(self, interlocking, node, note):
        self.note(note)
        self.restart(interlocking)
        self.restart(node)
        self.pass_time(6000)

    def miss_each_other(self, name, heartbeat, request):
        """What is to be said in the first good round, behind that: both miss something, and ask. What is lost here is missed there."""
        self.lose(heartbeat)
        self.pass_time(20)
        asked, = self.deliver(name, request)
        answer, request, heartbeat = self.deliver(self.name, asked)
        self.lose(heartbeat)
        self.deliver(name, answer)
        begin, state, *_ = self.deliver(name, request)
        self.lose(begin)
        self.deliver(self.name, state)


def small_station():
    return Station('IXL1', [Controller('S1', 2, 'signal'), Controller('S3', 3, 'signal'), Controller('S4', 4, 'signal'),
                            Controller('P1', 10, 'point'), Controller('D1', 20, 'detector', ('GA', 'GP', 'G1', 'G2'))])


def junction():
    signals = [Controller(f'S{k}', 20 + k, 'signal') for k in range(1, 8)]
    points = [Controller(f'P{k}', 10 + k, 'point') for k in range(1, 6)]
    detectors = [Controller('D1', 31, 'detector', ('GA1', 'GP1', 'GB1', 'GP4', 'GP5', 'GC1')),
                 Controller('D2', 32, 'detector', ('GA2', 'GP2', 'GB2', 'GB3'))]
    return Station('JUNCTION', signals + points + detectors, struct.unpack('<4I', bytes.fromhex('0123456789abcdeffedcba9876543210')))


# ---- the lists: each with the controller whose link is slow, and the lines behind the beginning of the good rounds

def slowest_recovery():
    it = small_station()
    it.note('''The slowest recovery of a station: 15,640 ms after the good rounds began a request is refused, since the link of P1 isn't ready.
10 ms later all are. The signal of R1 shows its aspect 530 ms after that; cancelled, it is at stop 10 ms later, and free 20.

It takes 10 ms longer than without copies. The interlocking and P1 are made anew, and say the same once more. So in the first of the good
rounds what was said 6 s ago brings what is said in this very round, and what was lost then is missed.

At clock 6000 P1 misses a heartbeat, asks, and takes of the answer all but a second heartbeat. It answers the version.''')
    it.pass_time(6000)
    told = it.come_up_to_request('P1')
    it.note('''At clock 6020 P1 hears the request for its initialisation, and asks. The interlocking hears that, and answers. P1 takes the response and
the request, and misses the heartbeat behind them; it begins to tell of itself. The interlocking misses the start, and asks at the next.''')
    it.miss_each_other('P1', *told)
    it.note("Both are made anew, and the same comes up to clock 6000. What was lost above isn't lost now, but comes too late.")
    it.restart('IXL1')
    it.restart('P1')
    it.pass_time(6000)
    assert it.come_up_to_request('P1') == told
    it.pass_time(10)
    it.note('''At clock 6010 the good rounds begin. The first is at 6020, and in it both ask: so neither takes anything any more. The interlocking has
nothing confirmed that is younger than 6000, and P1 has taken what confirms 6020. So P1 is quiet 20 ms longer, and the next request of
a connection comes 10 ms too early.''')
    return it, 'P1', ['flow 15640', 'resume', 'set R1', 'flow 10', 'set R1', 'flow 520', 'picture', 'flow 10', 'picture', 'cancel R1',
                      'flow 10', 'picture', 'flow 10', 'picture']


def slowest_route():
    it = small_station()
    it.note('''R1 was set before the good rounds began, and since then the links were lost. Its signal shows its aspect 16,180 ms after they began: the
link of P1 is ready as late as in slowest_recovery_by_copies, 15,650 ms after they began, and so the move is given then.
First what the interlocking and P1 are to say once more, as there; their clocks and numbers are those that they will have.''')
    told = it.live_before('IXL1', 'P1', 5)
    it.live_anew('IXL1', 'P1', 'Both are made anew. The links that R1 needs come up, and it is set. Its move does not come.')
    it.come_up(('S1', 'P1', 'D1'))
    it.line('resume')
    it.line('set R1')
    it.give('P1', MOVE, bytes([RIGHT]))
    it.note("All links are lost, and P1's is opened again as above.")
    it.pass_time(7800)
    assert it.come_up_to_request('P1') == told
    it.pass_time(10)
    it.note('At clock 13810 the good rounds begin.')
    return it, 'P1', ['flow 16160', 'picture', 'flow 10', 'picture', 'flow 10', 'picture']


def freed_without_a_train():
    it = junction()
    it.note('''R2 was cancelled before the good rounds began, with no train near. It is free 15,650 ms later: the link of D2 is ready again as late as
that of P1 in slowest_recovery_by_copies. First what the interlocking and D2 are to say once more, as there.''')
    told = it.live_before('JUNCTION', 'D2', 8)
    it.live_anew('JUNCTION', 'D2', 'Both are made anew. The links that R2 needs come up, and those of S1 and D1 live 300 ms longer. '
                 'R2 is set, and has its aspect.')
    it.come_up(('S1', 'P1', 'P2', 'P3', 'D1', 'D2'))
    it.line('resume')
    it.pass_time(300)
    beats = it.tick('JUNCTION')
    for name in ('S1', 'D1'):
        it.deliver(name, beats[name])
        it.deliver('JUNCTION', it.tick(name)['JUNCTION'])
    it.line('set R2')
    moves = {name: it.give(name, MOVE, bytes([RIGHT])) for name in ('P1', 'P2')}
    for name, move in moves.items():
        it.deliver(name, beats[name])
        it.deliver(name, move)
        it.deliver('JUNCTION', it.reach(name, RIGHT)[0])
    it.deliver('JUNCTION', it.deliver('S1', it.give_aspect('S1', PROCEED))[0])
    it.note('The link of D2 is lost, so R2 is withdrawn; it is cancelled, stop is confirmed, and its authority has ended.')
    it.pass_time(1500)
    it.line('cancel R2')
    it.deliver('JUNCTION', it.deliver('S1', it.give_aspect('S1', STOP))[0])
    it.note("D2's link is opened again as above.")
    it.pass_time(6000)
    assert it.come_up_to_request('D2') == told
    it.pass_time(10)
    it.note('At clock 13810 the good rounds begin.')
    return it, 'D2', ['flow 15640', 'picture', 'flow 10', 'picture']


def freed_late():
    it = small_station()

    def begin():
        it.pass_time(6000)
        it.come_up(('S1', 'P1', 'D1'))
        it.line('resume')
        it.line('set R2')
        aspect = it.give_aspect('S1', PROCEED)
        it.line('cancel R2')
        return aspect, it.give_aspect('S1', STOP)

    it.note('''R2 is cancelled just before the good rounds begin, with a train near. Its authority has ended 7810 ms after they began, and it is free
127,810 ms after they began: 10 ms later than without copies of what is said in the first round.

First what the interlocking and S1 are to say once more. At clock 6000 R2's aspect is given, and stop.''')
    it.occupy('GA')
    told = aspect, stop = begin()
    it.lose(aspect)
    it.note('''At clock 6020 S1 hears stop alone, and asks. Of the answer it takes the response, misses the aspect, and asks again. Of the next answer
it takes the response and the aspect, reports that, misses stop, and asks once more. The interlocking misses the report, and asks.''')
    it.pass_time(20)
    asked, = it.deliver('S1', stop)
    answer, aspect, stop, heartbeat = it.deliver('IXL1', asked)
    it.lose(aspect)
    it.deliver('S1', answer)
    asked, = it.deliver('S1', stop)
    answer, aspect, stop, last = it.deliver('IXL1', asked)
    it.lose(heartbeat)
    it.lose(stop)
    it.deliver('S1', answer)
    it.lose(it.deliver('S1', aspect)[0])
    it.deliver('IXL1', it.deliver('S1', last)[0])
    it.note("All are made anew, and the same comes up to clock 6000. What was lost above isn't lost now, but comes too late.")
    for name in ('IXL1', 'S1', 'P1', 'D1'):
        it.restart(name)
    assert begin() == told
    it.pass_time(10)
    it.note('''At clock 6010 the good rounds begin. The first is at 6020, and in it both ask: so neither takes anything any more. The interlocking took
what confirms 6020, so its link lasts until 7820, and until 13820 it doesn't know its signal at stop.''')
    return it, 'S1', ['flow 7800', 'picture', 'flow 10', 'picture', 'flow 119990', 'picture', 'flow 10', 'picture']


LISTS = (slowest_recovery, slowest_route, freed_without_a_train, freed_late)


def changes(it, name):
    """Behind which good rounds the ends of a link change: the interlocking's, then the controller's, and whether the former is ready."""
    was = None
    for count in range(1, 1600):
        it.good_round()
        client, server = it.clients[name], it.servers[name]
        client.look_at_clock(it.now(it.name)), server.look_at_clock(it.now(name))
        ready = ' ready' * (client.state in End.UP and it.stages[name])
        found = f'{client.state} {server.state}{ready}'
        if found != was:
            print(f'  {count}: {found}')
        was = found


def main():
    words = sys.argv[1:]
    for make in LISTS:
        it, name, behind = make()
        if words == ['--rounds']:
            print(f'{make.__name__}: {name}')
            changes(it, name)
            continue
        folder = pathlib.Path(words[0]) if words else DATA
        (folder / f'{make.__name__}_by_copies.events').write_text('\n'.join(it.lines + behind) + '\n')


main()
