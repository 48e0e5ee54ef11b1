#!/usr/bin/env python3
"""Has tshark read captures with the dissector `wireshark/zendurai.lua`, and compares all that it shows with what
`station decode` says. Needs tshark (the Debian package `tshark`), and the program `station`, which `rt run` leaves in
crates/station/out.

1. Every datagram that the stored sessions, event files and lists of datagrams have, under the layout that it belongs to: the
   line of the dissector, and the line put together from the fields that it shows one by one, are word for word the line of
   `station decode`. The same without a layout. The checksums of IPv4 and UDP are right, and no packet is malformed.
2. Every stored session, as `station capture` writes it: its packets are the datagrams that `station decode FILE RECORD` says
   were sent, in their order, each at its time, from the address of its sender to that of its receiver, with its words as under 1.
   Those that were lost have a comment, and no others. A file that is there is written over with `--force` alone. With an addresses
   file the packets go between its addresses and ports; what is wrong with one is told, and no capture made.
   And ten filters of docs/WIRE.md show those datagrams alone whose words say so.
3. Damaged datagrams: bits turned, cut off, lengthened, two joined, fields of another value under a right code. In none does
   the dissector run into an error, none is malformed, and the line is that of `station decode`.
4. A station that runs on loopback sockets while tshark captures there: every datagram that came to a node, as the record of
   the run has it, was captured, and each is read with its words. For this the user must be allowed to capture on `lo`.
5. Nodes that run as processes (`examples/machines/start.py`), each with a record, while tshark captures on `lo`. The record of each
   replays as the same. Its lines by `station decode --node` and its capture by `station capture --node` are those that this script
   reads in the record. All that a node sent was captured on `lo`, between the addresses of the file, and is read with its words.

usage: python3 bench/wire.py [--damaged N] [--live MS] [--nodes 0] [STATION]. N is 10000 where none is told, and MS 12000; 0 leaves a
part out. STATION is the program. The status is 1 where anything differs."""
import argparse
import collections
import decimal
import os
import random
import re
import shutil
import signal
import struct
import subprocess
import sys
import tempfile
import time
import tomllib
import xml.etree.ElementTree as xml
from concurrent.futures import ThreadPoolExecutor
from pathlib import Path

TOP = Path(__file__).resolve().parent.parent
DATA = TOP / "crates/stored_runs/data"
DISSECTOR = TOP / "wireshark/zendurai.lua"
PORT = 40100
# The greatest length of a PDU.
LONGEST = 225
# The greatest length of a datagram in a line of events.
MOST_BYTES = 512
# What tshark shows where a dissector fails, or finds bytes that can't be.
FAILED = ("_ws.lua.error", "_ws.malformed")


# ---- captures


def ones_sum(data):
    data += bytes(len(data) % 2)
    total = sum(struct.unpack(f">{len(data) // 2}H", data))
    while total >> 16:
        total = (total & 0xFFFF) + (total >> 16)
    return total


def packet(payload, port):
    """An IPv4 packet from a port of the loopback interface to itself, as the sockets of a station send."""
    address = bytes([127, 0, 0, 1])
    count = 8 + len(payload)
    udp = struct.pack(">HHHH", port, port, count, 0) + payload
    check = 0xFFFF - ones_sum(address * 2 + struct.pack(">BBH", 0, 17, count) + udp) or 0xFFFF
    header = struct.pack(">BBHHHBBH", 0x45, 0, 20 + count, 0, 0x4000, 64, 17, 0) + address * 2
    check_header = struct.pack(">H", 0xFFFF - ones_sum(header))
    return header[:10] + check_header + header[12:] + udp[:6] + struct.pack(">H", check) + udp[8:]


def block(kind, body):
    body += bytes(-len(body) % 4)
    count = struct.pack("<I", len(body) + 12)
    return struct.pack("<I", kind) + count + body + count


def write_capture(file, datagrams):
    """A pcapng file with these payloads, a millisecond apart."""
    blocks = [block(0x0A0D0D0A, struct.pack("<IHHq", 0x1A2B3C4D, 1, 0, -1)), block(1, struct.pack("<HHI", 228, 0, 0))]
    for n, payload in enumerate(datagrams):
        whole, stamp = packet(payload, PORT), 1000 * n
        head = struct.pack("<IIIII", 0, stamp >> 32, stamp & 0xFFFFFFFF, len(whole), len(whole))
        blocks.append(block(6, head + whole))
    file.write_bytes(b"".join(blocks))


# ---- what tshark shows


def tshark(*words):
    return ["tshark", "-X", f"lua_script:{DISSECTOR}", "-n", "-o", "udp.try_heuristic_first:TRUE", *words]


# What is shown of a packet: the tree of the protocol `rasta`, None where there is none, what failed, the payload, and beside it
# the time in microseconds, the addresses and the comment.
Shown = collections.namedtuple("Shown", "tree failed payload beside")


def shown(capture, layout, ports=(PORT,)):
    """What is shown of each packet of a capture."""
    options = [word for port in ports for word in ("-d", f"udp.port=={port},rasta")]
    if layout:
        options += ["-o", f"rasta.layout:{layout}"]
    command = tshark("-r", str(capture), "-T", "pdml", "-o", "ip.check_checksum:TRUE", "-o", "udp.check_checksum:TRUE", *options)
    with subprocess.Popen(command, stdout=subprocess.PIPE, stderr=subprocess.DEVNULL) as process:
        for _, element in xml.iterparse(process.stdout):
            if element.tag != "packet":
                continue
            names = {part.get("name", "") for part in element.iter()}
            failed = sorted(name for name in names if name.startswith(FAILED))
            payload = element.find(".//field[@name='udp.payload']")
            bytes_of = b"" if payload is None else bytes.fromhex(payload.get("value"))
            yield Shown(element.find("proto[@name='rasta']"), failed + wrong_sums(element), bytes_of, beside(element))
            element.clear()


def beside(element):
    """The time, the addresses and the comment of a packet."""
    time_of, sender, receiver, comment = (
        element.find(f".//field[@name='{name}']") for name in ("frame.time_epoch", "ip.src", "ip.dst", "frame.comment")
    )
    microseconds = int(decimal.Decimal(time_of.get("show")) * 1_000_000)
    return microseconds, sender.get("show"), receiver.get("show"), None if comment is None else comment.get("show")


def wrong_sums(element):
    """The checksums of IPv4 and UDP that tshark finds wrong. 1 is good."""
    wanted = ("ip.checksum.status", "udp.checksum.status")
    return [part.get("name") for part in element.iter("field") if part.get("name") in wanted and part.get("show") != "1"]


def value(tree, name):
    field = tree.find(f"field[@name='{name}']")
    return None if field is None else field.get("show")


def label(tree, name):
    """What is shown of a field with a table of words: the word."""
    field = tree.find(f"field[@name='{name}']")
    return None if field is None else re.sub(r" \([^()]*\)$", "", field.get("showname").split(": ", 1)[1])


def node(tree, name):
    return value(tree, f"{name}.name") or "#" + value(tree, name)


def telegram_words(tree, item, sender, receiver):
    """A telegram, put together from its fields."""
    fault = value(tree, "sci.fault")
    if fault:
        return f"no telegram: fault {fault} {item.replace(':', '')}"
    name = value(tree, "sci.name")
    has_protocol = re.match("initialisation|start|version", name)
    words = [label(tree, "sci.protocol")] if has_protocol else []
    words.append(name)
    words += [label(tree, f"sci.{field}") for field in ("agreement", "side", "position", "aspect", "occupancy")]
    words.append(value(tree, "sci.version"))
    if value(tree, "sci.sender") != sender:
        words.append("from " + value(tree, "sci.sender"))
    if value(tree, "sci.receiver") != receiver:
        words.append("to " + value(tree, "sci.receiver"))
    return " ".join(word for word in words if word)


def body_words(tree, sender, receiver):
    items = tree.findall("field[@name='rasta.item']")
    if items:
        return ": " + "; ".join(telegram_words(item.find("proto"), item.get("show"), sender, receiver) for item in items)
    if value(tree, "rasta.version"):
        reserved = value(tree, "rasta.reserved").replace(":", "")
        return f": version {value(tree, 'rasta.version')} window {value(tree, 'rasta.window')} reserved {reserved}"
    if value(tree, "rasta.reason"):
        field = label(tree, "rasta.reason").replace("Unknown", "unknown")
        return f": reason {value(tree, 'rasta.reason')} {field}, detail {value(tree, 'rasta.detail')}"
    return ""


def line_of(tree):
    """The line for a datagram, put together from the fields that are shown one by one."""
    fault = value(tree, "rasta.fault")
    if fault:
        return f"no PDU: fault {fault}"
    sender, receiver = node(tree, "rasta.sender"), node(tree, "rasta.receiver")
    numbers = " ".join(f"{name.upper()} {value(tree, 'rasta.' + name)}" for name in ("sn", "cs", "ts", "cts"))
    return f"{sender} > {receiver} {label(tree, 'rasta.type')} {numbers}" + body_words(tree, sender, receiver)


# ---- what `station decode` says


class Words:
    """The lines of `station decode` for datagrams, asked for once each."""

    def __init__(self, station):
        self.station, self.known = station, {}

    def ask(self, asked):
        layout, datagram = asked
        words = [self.station, "decode", "--hex", datagram.hex() or "-"]
        words += ["--layout", str(layout)] if layout else []
        return subprocess.run(words, capture_output=True, text=True, check=True).stdout.rstrip("\n")

    def of(self, layout, datagrams):
        new = list(dict.fromkeys((layout, datagram) for datagram in datagrams if (layout, datagram) not in self.known))
        with ThreadPoolExecutor(os.cpu_count()) as pool:
            self.known.update(zip(new, pool.map(self.ask, new)))
        return [self.known[layout, datagram] for datagram in datagrams]


# ---- the datagrams


def stored():
    """The stored datagrams of each file that has any, with the layout that they belong to, or with none."""
    for line in (DATA / "runs").read_text().splitlines():
        kind, *files = line.split()
        layout, last = DATA / files[0], DATA / files[-1]
        if kind == "plain-decode":
            yield None, hexadecimal(last)
        elif layout.suffix == ".toml" and len(files) == 2:
            if kind == "decode":
                yield layout, hexadecimal(last)
            elif last.suffix in (".session", ".events"):
                yield layout, re.findall(r"^(?:deliver \S+|lose) ((?:[0-9a-f]{2})+)\b", last.read_text(), re.MULTILINE)


def hexadecimal(file):
    """The datagrams of a list. One that has none would be a list that nobody compares."""
    words = [word for word in file.read_text().split() if re.fullmatch("(?:[0-9a-f]{2})+", word)]
    if not words:
        sys.exit(f"{file} has no datagram")
    return words


def stored_datagrams():
    found = {}
    for layout, words in stored():
        datagrams = (bytes.fromhex(word) for word in words if len(word) <= 2 * MOST_BYTES)
        found.setdefault(layout, {}).update(dict.fromkeys(datagrams))
    return {layout: list(datagrams) for layout, datagrams in found.items() if datagrams}


# ---- MD4 (RFC 1320), from the standard start

ORDERS = (range(16), [i % 4 * 4 + i // 4 for i in range(16)], [0, 8, 4, 12, 2, 10, 6, 14, 1, 9, 5, 13, 3, 11, 7, 15])
TURNS = ((3, 7, 11, 19), (3, 5, 9, 13), (3, 9, 11, 15))
ADDED = (0, 0x5A827999, 0x6ED9EBA1)
MIXED = (lambda x, y, z: x & y | ~x & z, lambda x, y, z: x & y | x & z | y & z, lambda x, y, z: x ^ y ^ z)


def code(text):
    """The safety code of a text."""
    padded = text + b"\x80" + bytes((55 - len(text)) % 64) + struct.pack("<Q", 8 * len(text))
    registers = [0x67452301, 0xEFCDAB89, 0x98BADCFE, 0x10325476]
    for at in range(0, len(padded), 64):
        words, (a, b, c, d) = struct.unpack("<16I", padded[at : at + 64]), registers
        for order, turns, added, mixed in zip(ORDERS, TURNS, ADDED, MIXED):
            for step, word in enumerate(order):
                total = (a + mixed(b, c, d) + words[word] + added) & 0xFFFFFFFF
                turn = turns[step % 4]
                a, b, c, d = d, (total << turn | total >> 32 - turn) & 0xFFFFFFFF, b, c
        registers = [(old + new) & 0xFFFFFFFF for old, new in zip(registers, (a, b, c, d))]
    return struct.pack("<4I", *registers)[:8]


def coded(text):
    """A text with a right length field and a right code."""
    text = struct.pack("<H", len(text) + 8) + text[2:]
    return text + code(text)


# ---- damage


def turned(chance, data):
    for _ in range(chance.choice((1, 1, 2, 8))):
        at = chance.randrange(8 * len(data))
        data = data[: at // 8] + bytes([data[at // 8] ^ 1 << at % 8]) + data[at // 8 + 1 :]
    return data


def damaged(chance, some):
    """One of some datagrams, damaged in one of eight ways. The last four have a right length and a right code."""
    data = chance.choice(some)
    text, at = data[:-8], chance.randrange(28, max(29, len(data) - 8))
    return (
        lambda: turned(chance, data),
        lambda: data[: chance.randrange(1, len(data))],
        lambda: data + chance.randbytes(chance.randrange(1, MOST_BYTES - len(data))),
        lambda: (data + chance.choice(some))[:MOST_BYTES],
        lambda: coded(text[:2] + struct.pack("<H", chance.choice((0, 6200, 6201, 6212, 6216, 6220, 6240, 6241, 6242))) + text[4:]),
        lambda: coded(text[:at] + chance.randbytes(chance.randrange(1, 4)) + text[at + 1 :]),
        lambda: coded(text[:at]),
        lambda: coded(turned(chance, text)),
    )[chance.randrange(8)]()


# ---- comparisons


class Report:
    def __init__(self):
        self.wrong = 0

    def differs(self, where, *lines):
        self.wrong += 1
        if self.wrong <= 20:
            print(f"WRONG {where}", *lines, sep="\n    ")


def compare_one(report, it, wanted):
    """Compares what is shown of a datagram with its words: the line, and the line put together from the fields."""
    if it.failed or it.tree is None:
        report.differs(f"{it.payload.hex()}: {it.failed or 'not read'}")
        return
    for line in (value(it.tree, "rasta.words"), line_of(it.tree)):
        if line != wanted:
            report.differs(it.payload.hex(), line, wanted)


def compare(report, words, layout, datagrams, folder):
    """Compares what is shown of datagrams with their words, and counts them by the types or faults that they have."""
    capture = folder / "some.pcapng"
    write_capture(capture, datagrams)
    counts = collections.Counter()
    for datagram, wanted, it in zip(datagrams, words.of(layout, datagrams), shown(capture, layout), strict=True):
        if it.payload != datagram:
            report.differs(datagram.hex(), f"captured as {it.payload.hex()}")
        compare_one(report, it, wanted)
        if it.tree is not None:
            counts[value(it.tree, "rasta.fault") or label(it.tree, "rasta.type")] += 1
    return len(datagrams), counts


def told(counts):
    return ", ".join(f"{count} {kind}" for kind, count in sorted(counts.items()))


def compare_stored(report, words, folder):
    for layout, datagrams in stored_datagrams().items():
        for used in dict.fromkeys((layout, None)):
            read, counts = compare(report, words, used, datagrams, folder)
            name = used.name if used else f"no layout ({layout.name if layout else 'plain'})"
            print(f"{name}: {read} datagrams: {told(counts)}")


def compare_damaged(report, words, folder, count):
    chance = random.Random(39)
    some = [datagram for datagrams in stored_datagrams().values() for datagram in datagrams if 36 <= len(datagram) <= LONGEST]
    read, counts = compare(report, words, None, [damaged(chance, some) for _ in range(count)], folder)
    print(f"damaged: {read} datagrams: {told(counts)}")


# Filters of docs/WIRE.md, each with what stands in the words of the datagrams that it shows.
FILTERS = {
    "rasta.type == 6216": " disconnection request ",
    "rasta.type == 6212": " retransmission request ",
    "rasta.sn && !rasta.fault": " SN ",
    "rasta.fault": "no PDU: ",
    'rasta.sender.name == "S1"': "S1 > ",
    'sci.name == "indicate aspect"': "indicate aspect ",
    'sci.name == "indicated aspect"': "indicated aspect ",
    'sci.name == "indicate aspect" && sci.aspect == "proceed"': "indicate aspect proceed",
    'sci.sender == "GP" && sci.occupancy == "occupied"': "occupancy status occupied from GP",
    'sci.position == "left"': "point position left",
}


def compare_filters(report, words, folder):
    """How many datagrams each filter shows of those of two sessions, with a train and with a lost one, and of damaged ones."""
    layout, capture, some = DATA / "small.toml", folder / "filtered.pcapng", []
    for session in ("passage.session", "lost_stop.session", "traffic.session"):
        some += re.findall(r"^(?:deliver \S+|lose) ((?:[0-9a-f]{2})+)\b", (DATA / session).read_text(), re.MULTILINE)
    datagrams = [bytes.fromhex(word) for word in some]
    write_capture(capture, datagrams)
    lines = words.of(layout, datagrams)
    for asked, text in FILTERS.items():
        command = tshark("-r", str(capture), "-d", f"udp.port=={PORT},rasta", "-o", f"rasta.layout:{layout}", "-Y", asked)
        shows = len(subprocess.run(command, capture_output=True, text=True, check=True).stdout.splitlines())
        if shows != sum(text in line for line in lines):
            report.differs(f"{asked}: {shows}", sum(text in line for line in lines))
    print(f"filters: {len(FILTERS)} on {len(datagrams)} datagrams")


# ---- sessions


def sessions():
    """The stored sessions, each with its layout."""
    lines = [line.split() for line in (DATA / "runs").read_text().splitlines()]
    return dict.fromkeys((DATA / files[0], DATA / files[1]) for kind, *files in lines if kind in ("replay", "decode-session"))


def addresses(layout):
    """The addresses of the nodes by their names, made of their places: the interlocking, the signals, points and detectors."""
    told = tomllib.loads(layout.read_text())
    nodes = [told["station"]] + [node for kind in ("signal", "point", "detector") for node in told[kind]]
    return {node["name"]: f"10.0.{place // 250 % 250}.{place % 250 + 1}" for place, node in enumerate(nodes)}


def lost_places(lines, losses, payloads):
    """Which of the datagrams that were sent are lost: a loss takes the oldest copy that is left."""
    lost, sent, losses = set(), 0, iter(losses)
    for line in lines:
        what = line.split(" ", 1)[1].split(": ")[0]
        sent += what.startswith("sent")
        if what.startswith(("lost", "not lost")):
            data = bytes.fromhex(next(losses).replace("-", ""))
            left = [place for place in range(sent) if payloads[place] == data and place not in lost]
            lost.update(left[:1] if what == "lost" else [])
    return lost


def told_lines(report, station, layout, session, capture):
    """The lines that tell of a session, whose capture was made too. A faulty one has neither, for one reason."""
    capture.unlink(missing_ok=True)
    files = [str(layout), str(session)]
    told = subprocess.run([station, "decode", *files], capture_output=True, text=True)
    made = subprocess.run([station, "capture", *files, str(capture)], capture_output=True, text=True)
    if (told.returncode, told.stderr) != (made.returncode, made.stderr) or capture.exists() == bool(made.returncode):
        report.differs(f"{session.name}: statuses {told.returncode} and {made.returncode}", told.stderr, made.stderr)
    return told.stdout.splitlines() if capture.exists() else None


def compare_session(report, station, layout, session, capture):
    """Compares the capture of a session with the lines that tell of it, and answers how many datagrams it has."""
    lines = told_lines(report, station, layout, session, capture)
    if lines is None:
        return 0
    read = list(shown(capture, layout))
    sent = [re.fullmatch(r"(\d+)\.(\d{3}) sent by (\S+) to (\S+): (.*)", line) for line in lines]
    sent = [line.groups() for line in sent if line]
    if len(sent) != len(read):
        report.differs(f"{session.name}: {len(sent)} were sent, {len(read)} are captured")
    lost = lost_places(lines, re.findall(r"^lose (\S+)", session.read_text(), re.MULTILINE), [it.payload for it in read])
    found = addresses(layout)
    for place, ((whole, parts, sender, receiver, wanted), it) in enumerate(zip(sent, read)):
        compare_one(report, it, wanted)
        told_beside = int(whole + parts), found[sender], found[receiver], "lost" if place in lost else None
        if it.beside != told_beside:
            report.differs(f"{session.name}, datagram {place}", it.beside, told_beside)
    return len(read)


def try_force(report, station, capture):
    """A file that is there is written over with `--force` alone."""
    capture.write_bytes(b"kept")
    words = [station, "capture", str(DATA / "small.toml"), str(DATA / "traffic.session"), str(capture)]
    refused = subprocess.run(words, capture_output=True, text=True)
    if (refused.returncode, refused.stderr, capture.read_bytes()) != (1, "capture fault 2 Exists\n", b"kept"):
        report.differs("a file that is there", refused.returncode, refused.stderr)
    forced = subprocess.run([*words, "--force"], capture_output=True, text=True)
    made = capture.read_bytes()
    capture.unlink()
    again = subprocess.run(words, capture_output=True, text=True)
    if (forced.returncode, again.returncode) != (0, 0) or capture.read_bytes() != made:
        report.differs("a file that is written over", forced.returncode, again.returncode)


def compare_sessions(report, words, folder):
    try_force(report, words.station, folder / "session.pcapng")
    for layout, session in sessions():
        read = compare_session(report, words.station, layout, session, folder / "session.pcapng")
        print(f"{session.name}: {read} datagrams of a capture by `station capture`")


# ---- a station that runs


ADDRESSES = TOP / "examples/machines/halden.addresses"


def given_addresses(layout, file):
    """Writes an addresses file for all nodes of a layout, and answers the addresses by name."""
    found = {name: f"192.0.2.{place + 1}" for place, name in enumerate(addresses(layout))}
    file.write_text("".join(f'{name} = "{address}:{5000 + place}"\n' for place, (name, address) in enumerate(found.items())))
    return found


def try_addresses(report, station, folder):
    """A capture between the addresses of a file, and what is told of faulty ones."""
    layout, session, capture = DATA / "small.toml", DATA / "traffic.session", folder / "addressed.pcapng"
    file = folder / "small.addresses"
    found = given_addresses(layout, file)
    good, own = file.read_text(), {address: name for name, address in addresses(layout).items()}
    for out, more in ((folder / "placed.pcapng", []), (capture, ["--addresses", str(file)])):
        subprocess.run([station, "capture", str(layout), str(session), str(out), *more], check=True)
    for here, there in zip(shown(folder / "placed.pcapng", layout), shown(capture, layout, range(5000, 5000 + len(found))), strict=True):
        wanted = here.beside[0], found[own[here.beside[1]]], found[own[here.beside[2]]], here.beside[3]
        if (there.beside, there.payload) != (wanted, here.payload):
            report.differs("between given addresses", there.beside, wanted)
    first, second = list(found)[:2]
    for text, fault in (
        (good.replace("192.0.2.2:", "[2001:db8::2]:"), f"capture fault 3 NoIpv4 at {second}\n"),
        (good.replace(f"{second} =", "nobody ="), f"2 MissingNode at {second}\n"),
        (good.replace("192.0.2.2:5001", "192.0.2.1:5000"), f"4 DoubleAddress at {second}\n"),
        ("=", "1 Toml\n"),
    ):
        capture.unlink(missing_ok=True)
        file.write_text(text)
        words = [station, "capture", str(layout), str(session), str(capture), "--addresses", str(file)]
        told = subprocess.run(words, capture_output=True, text=True)
        if (told.returncode, told.stderr, capture.exists()) != (1, fault, False):
            report.differs("faulty addresses", told.returncode, told.stderr, fault)
    print("addresses: a capture between given ones, and four faults")


# ---- the records of nodes

# A datagram in a record: the reading, its ends (none where no node has the address), the reason why it wasn't delivered, its bytes.
Passed = collections.namedtuple("Passed", "reading sender receiver why payload")


def passed(record, name, station_name):
    """The datagrams in the record of a node, as this script reads it."""
    text = record.read_text()
    lines = text[: text.rfind("\n")].split("\n")
    latest, found = 0, []
    for place, line in enumerate(lines):
        kind, *more = line.split(" ")
        if kind == "at":
            latest = int(more[0])
        elif kind == "sends":
            found.append(Passed(latest, name, more[0], None, bytes.fromhex(more[1].replace("-", ""))))
        elif kind == "from":
            behind = lines[place + 1 : place + 3] + ["", ""]
            read = behind[0].startswith("at ")
            partner = more[0] != "-" and (more[0] == station_name) != (name == station_name)
            why = "not read" if not read else "thrown away" if behind[1].startswith("throws away ") else None if partner else "from no partner"
            reading = int(behind[0].split(" ")[1]) if read else latest
            found.append(Passed(reading, None if more[0] == "-" else more[0], name, why, bytes.fromhex(more[1].replace("-", ""))))
    return found


def line_for(one, name, words):
    if one.sender == name:
        return f"{one.reading}.000 sent by {name} to {one.receiver}: {words}"
    fate = f"not delivered to {name}, {one.why}" if one.why else f"delivered to {name}"
    return f"{one.reading}.000 {fate}: {words}"


def compare_record(report, words, layout, record, name, found, capture):
    """Compares what is told and captured of a node's record with what this script reads in it."""
    station_name = tomllib.loads(layout.read_text())["station"]["name"]
    all_passed = passed(record, name, station_name)
    told = words.of(layout, [one.payload for one in all_passed])
    files = [str(layout), str(record)]
    replayed = subprocess.run([words.station, "replay", *files, "--node", name], capture_output=True, text=True)
    if replayed.stdout != "same\n":
        report.differs(f"{name}: replayed", replayed.stdout, replayed.stderr)
    lines = subprocess.run([words.station, "decode", *files, "--node", name], capture_output=True, text=True, check=True).stdout
    wanted = [line_for(one, name, line) for one, line in zip(all_passed, told)]
    if lines.splitlines() != wanted:
        report.differs(f"{name}: {len(lines.splitlines())} lines, {len(wanted)} wanted")
    command = [words.station, "capture", *files, str(capture), "--node", name, "--addresses", str(ADDRESSES), "--force"]
    subprocess.run(command, check=True)
    ports = [int(address.split(":")[1]) for address in found.values()]
    for one, line, it in zip(all_passed, told, shown(capture, layout, ports), strict=True):
        compare_one(report, it, line)
        ends = [found[end].split(":")[0] if end else "0.0.0.0" for end in (one.sender, one.receiver)]
        if (it.payload, it.beside) != (one.payload, (1000 * one.reading, *ends, one.why)):
            report.differs(f"{name}: captured", it.beside, one)
    return all_passed


def compare_nodes(report, words, folder):
    """Runs the nodes of Halden, each with a record, and compares their records with what goes over the loopback interface."""
    layout, capture = TOP / "examples/halden.toml", folder / "nodes.pcapng"
    recording = folder / "recording"
    recording.write_text(f'#!/bin/sh\nexec {Path(words.station).resolve()} "$@" --record {folder}/$3.record\n')
    recording.chmod(0o755)
    process = started_capture(capture)
    start = [sys.executable, str(TOP / "examples/machines/start.py"), str(recording), str(layout), str(ADDRESSES), "A-N1"]
    subprocess.run(start, check=True, stdout=subprocess.DEVNULL)
    time.sleep(1)
    process.send_signal(signal.SIGINT)
    process.wait()
    found = tomllib.loads(ADDRESSES.read_text())
    ports = {int(address.split(":")[1]) for address in found.values()}
    read = [it for it in shown(capture, layout, ports) if it.tree is not None]
    for it, line in zip(read, words.of(layout, [it.payload for it in read])):
        compare_one(report, it._replace(failed=[name for name in it.failed if name != "udp.checksum.status"]), line)
    sent = collections.Counter()
    for name in found:
        all_passed = compare_record(report, words, layout, folder / f"{name}.record", name, found, folder / "record.pcapng")
        sent.update(one.payload for one in all_passed if one.sender == name)
    for missing in sent - collections.Counter(it.payload for it in read):
        report.differs("nodes: it was sent and wasn't captured", missing.hex())
    print(f"nodes: {len(found)} records with {sum(sent.values())} datagrams sent; {len(read)} captured")


def started_capture(file):
    """tshark at work on the loopback interface."""
    process = subprocess.Popen(
        ["tshark", "-i", "lo", "-f", "udp", "-w", str(file)], stdout=subprocess.DEVNULL, stderr=subprocess.PIPE, text=True
    )
    for line in process.stderr:
        if "Capturing on" in line:
            time.sleep(1)
            return process
    sys.exit("tshark doesn't capture on lo: is the user allowed to?")


def compare_with_record(report, words, layout, capture, record):
    """What was captured while a station ran, with what its record says came to nodes. On loopback nothing is lost, so all of it
    was captured, and what was captured and didn't come was on its way at the end."""
    read = [it for it in shown(capture, layout, ports=()) if it.tree is not None]
    for it, wanted in zip(read, words.of(layout, [it.payload for it in read])):
        # The kernel leaves the checksum of UDP undone on this interface.
        compare_one(report, it._replace(failed=[name for name in it.failed if name != "udp.checksum.status"]), wanted)
    came = re.findall(r"^deliver \S+ ([0-9a-f]+) = ok$", record.read_text(), re.MULTILINE)
    sent = collections.Counter(it.payload.hex() for it in read)
    for missing in collections.Counter(came) - sent:
        report.differs("live: it came to a node and wasn't captured", missing)
    # an interlocking holds for 6 s before it opens a link
    if not came:
        report.differs("live: datagrams that came to nodes", "none")
    print(f"live: {len(read)} datagrams, of which {len(came)} came to nodes before the end")


def compare_live(report, words, folder, milliseconds):
    layout, script = TOP / "examples/small.toml", TOP / "examples/proceed.script"
    capture, record = folder / "live.pcapng", folder / "run.session"
    process = started_capture(capture)
    run = [words.station, "run", str(layout), "--script", str(script), "--record", str(record), "--for", str(milliseconds)]
    subprocess.run(run, check=True, stdout=subprocess.DEVNULL)
    time.sleep(1)
    process.send_signal(signal.SIGINT)
    process.wait()
    compare_with_record(report, words, layout, capture, record)
    print(f"live: a station that ran for {milliseconds} ms")


def main():
    parser = argparse.ArgumentParser(description=__doc__, formatter_class=argparse.RawDescriptionHelpFormatter)
    parser.add_argument("--damaged", type=int, default=10_000)
    parser.add_argument("--live", type=int, default=12_000)
    parser.add_argument("--nodes", type=int, default=1)
    parser.add_argument("station", nargs="?", default=str(TOP / "crates/station/out/station"))
    asked = parser.parse_args()
    if not shutil.which("tshark"):
        sys.exit("tshark isn't there: it is in the Debian package `tshark` (apt-get install tshark)")
    if not Path(asked.station).exists():
        sys.exit(f"{asked.station} isn't there: `rt run` in crates/station leaves it there")
    if subprocess.run([asked.station, "decode", "--hex", "-"], capture_output=True).returncode:
        sys.exit(f"{asked.station} has no `decode`, whose words are wanted")
    report, words = Report(), Words(asked.station)
    with tempfile.TemporaryDirectory() as folder:
        folder = Path(folder)
        compare_stored(report, words, folder)
        compare_filters(report, words, folder)
        compare_sessions(report, words, folder)
        try_addresses(report, words.station, folder)
        if asked.damaged:
            compare_damaged(report, words, folder, asked.damaged)
        if asked.live:
            compare_live(report, words, folder, asked.live)
        if asked.nodes:
            compare_nodes(report, words, folder)
    print("all as `station decode` says" if not report.wrong else f"{report.wrong} differ")
    return 1 if report.wrong else 0


if __name__ == "__main__":
    sys.exit(main())
