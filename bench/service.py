#!/usr/bin/env python3
"""Runs each long command of the built program with a file that ends it, and with records in parts: status 0 at its end, the last lines
safe, the record whole; `replay`, `decode`, `chart` and `capture` say the same of the parts as of the whole record; what must be refused
is. As root also on a disk that becomes full.

    python3 bench/service.py STATION [fast]          with `fast` without the disk
"""
import os
import pathlib
import subprocess
import sys
import tempfile
import threading
import time
import urllib.request

TOP = pathlib.Path(__file__).resolve().parent.parent
SMALL = TOP / "examples/small.toml"
SCRIPT = TOP / "examples/proceed.script"
HALDEN = TOP / "examples/halden.toml"
ADDRESSES = TOP / "examples/machines/halden.addresses"
FIELD = TOP / "examples/machines/field.py"
OPERATOR = "127.0.0.1:5299"
PORT = "8091"
SIZE = 16384
# how long a command may take to end once its file is there, in seconds
SOON = 1.0


def well(what, is_well, told=""):
    if not is_well:
        sys.exit(f"{what}: NOT WELL\n{told}")
    print(f"{what}: well", flush=True)


class Long:
    """A long command that runs, and what it prints."""

    def __init__(self, *words):
        self.lines, self.err = [], []
        self.process = subprocess.Popen([str(it) for it in words], stdin=subprocess.PIPE, stdout=subprocess.PIPE, stderr=subprocess.PIPE, text=True)
        self.threads = [threading.Thread(target=self.listen, args=it, daemon=True) for it in ((self.process.stdout, self.lines), (self.process.stderr, self.err))]
        for it in self.threads:
            it.start()

    @staticmethod
    def listen(stream, lines):
        lines.extend(line.rstrip("\n") for line in stream)

    def say(self, line):
        self.process.stdin.write(line + "\n")
        self.process.stdin.flush()

    def wait(self, seconds=30):
        status = self.process.wait(seconds)
        for it in self.threads:
            it.join()
        return status

    def stop(self, file):
        """Makes the file, and answers the status, and how long the end took."""
        began = time.monotonic()
        pathlib.Path(file).touch()
        status = self.wait()
        return status, time.monotonic() - began

    def ends_well(self, what, file):
        status, took = self.stop(file)
        well(f"{what} ended with status {status} after {took * 1000:.0f} ms", status == 0 and took < SOON, "\n".join(self.lines[-5:] + self.err))


def run(*words):
    return subprocess.run([str(it) for it in words], capture_output=True, text=True)


def parts_of(record):
    """The files of a record, in their order."""
    found = [record]
    while (there := record.with_name(f"{record.name}.{len(found) + 1}")).exists():
        found.append(there)
    return found


def judge_parts(what, record, size):
    """Each part but the last ends with a line, and without its last line it is shorter than the size."""
    texts = [it.read_bytes() for it in parts_of(record)]
    full = all(it.endswith(b"\n") and len(it) >= size for it in texts[:-1])
    short = all(len(it[: it.rstrip(b"\n").rfind(b"\n") + 1]) < size for it in texts)
    well(f"{what}: {len(texts)} parts", len(texts) > 2 and full and short and texts[-1].endswith(b"\n"))
    whole = record.with_name(f"{record.name}-whole")
    whole.write_bytes(b"".join(texts))
    return whole


def same_of_both(what, program, layout, record, whole, *node):
    """What the readers say of the parts is what they say of the whole record."""
    ran = run(program, "replay", layout, record, *node)
    well(f"{what} replays", (ran.returncode, ran.stdout) == (0, "same\n"), ran.stdout + ran.stderr)
    for command in ("replay", "decode", "chart"):
        one, other = (run(program, command, layout, it, *node) for it in (record, whole))
        well(f"{command} of {what}", one.returncode == 0 and one.stdout and (one.stdout, one.stderr) == (other.stdout, other.stderr), one.stderr)
    outs = [it.with_name(f"{it.name}.pcapng") for it in (record, whole)]
    ran = [run(program, "capture", layout, it, out, *node) for it, out in zip((record, whole), outs)]
    well(f"capture of {what}", all(it.returncode == 0 for it in ran) and outs[0].read_bytes() == outs[1].read_bytes(), ran[0].stderr)


def refusals(program, room):
    """What may not begin, each with the name of the file that is there."""
    there = room / "there"
    there.touch()
    second = room / "fresh.2"
    second.touch()
    long = [
        ("run", SMALL, "--script", SCRIPT, "--record", room / "r", "--for", 1000),
        ("panel", SMALL, "--port", PORT, "--for", 1000, "--record", room / "r"),
        ("panel", HALDEN, "--node", OPERATOR, "--port", PORT, "--for", 1000),
        ("node", HALDEN, "HALDEN", "--addresses", ADDRESSES, "--for", 1000),
    ]
    for words in long:
        ran = run(program, *words, "--stop-file", there)
        well(f"{words[0]} over a stop file", ran.returncode == 1 and str(there) in ran.stderr and not ran.stdout, ran.stderr)
        if room / "r" not in words:
            continue
        for record in (there, room / "fresh"):
            named = there if record == there else second
            given = [record if it == room / "r" else it for it in words]
            ran = run(program, *given, "--record-size", SIZE)
            well(f"{words[0]} over {named.name}", ran.returncode == 1 and str(named) in ran.stderr and not record.with_name("fresh").exists(), ran.stderr)
    for words in (long[1][:-2], long[2], long[3]):
        ran = run(program, *words, "--record-size", SIZE)
        well(f"{words[0]} with a size and without a record", ran.returncode == 2 and not ran.stdout, ran.stderr)
    for size in (4095, 4294967297):
        ran = run(program, *long[3], "--record", room / "r", "--record-size", size)
        well(f"a size of {size}", ran.returncode == 2, ran.stderr)


def sessions(program, room):
    record, end = room / "run.session", room / "run.end"
    began = Long(program, "run", SMALL, "--script", SCRIPT, "--record", record, "--record-size", SIZE, "--for", 60000, "--stop-file", end)
    time.sleep(10)
    began.ends_well("run", end)
    well("its picture", began.lines[0].startswith("time 1") and began.lines[-1] == "safe", "\n".join(began.lines))
    whole = judge_parts("run", record, SIZE)
    same_of_both("a run", program, SMALL, record, whole)
    broken_parts(program, record)

    record, end = room / "panel.session", room / "panel.end"
    began = Long(program, "panel", SMALL, "--port", PORT, "--record", record, "--record-size", SIZE, "--stop-file", end)
    time.sleep(10)
    page = urllib.request.urlopen(f"http://127.0.0.1:{PORT}/", timeout=5).read()
    well("the page of a panel", b"<html" in page)
    began.ends_well("panel", end)
    same_of_both("a panel", program, SMALL, record, judge_parts("panel", record, SIZE))
    # and whole, in one file
    record, end = room / "whole.session", room / "whole.end"
    began = Long(program, "panel", SMALL, "--port", PORT, "--record", record, "--stop-file", end)
    time.sleep(3)
    began.ends_well("panel with one file", end)
    ran = run(program, "replay", SMALL, record)
    well("it replays", (ran.returncode, ran.stdout, len(parts_of(record))) == (0, "same\n", 1), ran.stdout + ran.stderr)


def broken_parts(program, record):
    """A part that is missing, and one that is cut, are told by their names."""
    second = parts_of(record)[1]
    text = second.read_bytes()
    second.write_bytes(text[:-7])
    ran = run(program, "replay", SMALL, record)
    well("a cut part", ran.returncode == 1 and f"{second} ends within a line" in ran.stderr, ran.stderr)
    second.unlink()
    ran = run(program, "decode", SMALL, record)
    well("a missing part", ran.returncode == 1 and f"{second} is missing" in ran.stderr, ran.stderr)
    second.write_bytes(text)


def nodes(program, room):
    end, record = room / "node.end", room / "node.record"
    field = Long(sys.executable, FIELD, program, HALDEN, ADDRESSES, f"--stop-file={end}")
    station = Long(program, "node", HALDEN, "HALDEN", "--addresses", ADDRESSES, "--operator", OPERATOR, "--record", record, "--record-size", SIZE, "--stop-file", end)
    time.sleep(2)
    panel_end = room / "operator.end"
    panel = Long(program, "panel", HALDEN, "--node", OPERATOR, "--port", PORT, "--stop-file", panel_end)
    time.sleep(12)
    panel.ends_well("panel --node", panel_end)
    station.ends_well("the interlocking", end)
    well("its complaints", len(station.err) == 1 and station.err[0].startswith("layout "), "\n".join(station.err))
    well(f"its field ended with status {field.wait()}", field.process.returncode == 0, "\n".join(field.err))
    same_of_both("an interlocking", program, HALDEN, record, judge_parts("the interlocking", record, SIZE), "--node", "HALDEN")


def signal(program, room):
    """A signal whose lamp is played here."""
    end, record = room / "signal.end", room / "signal.record"
    began = Long(program, "node", HALDEN, "A", "--addresses", ADDRESSES, "--record", record, "--record-size", 4096, "--stop-file", end)
    time.sleep(1)
    well("its first line", len(began.lines) == 1 and began.lines[0].endswith(" show stop"), "\n".join(began.lines))
    began.say("done 1")
    time.sleep(3)
    began.ends_well("a signal", end)
    well("its last line", began.lines[-1].endswith(" show stop"), "\n".join(began.lines))
    well("its record's last line", record_lines(record)[-1].startswith("writes "), "\n".join(record_lines(record)[-3:]))
    ran = run(program, "replay", HALDEN, record, "--node", "A")
    well("it replays", (ran.returncode, ran.stdout) == (0, "same\n"), ran.stdout + ran.stderr)
    # one that still waits for its lamp
    end = room / "waiting.end"
    began = Long(program, "node", HALDEN, "A", "--addresses", ADDRESSES, "--stop-file", end)
    time.sleep(1)
    began.ends_well("a signal that waits for its lamp", end)


def record_lines(record):
    return b"".join(it.read_bytes() for it in parts_of(record)).decode().splitlines()


def full_disk(program, room):
    """On a disk of 64 KiB the node tells once that it can't write its record, and goes on; a run ends."""
    disk = room / "disk"
    disk.mkdir()
    subprocess.run(["mount", "-t", "tmpfs", "-o", "size=64k", "tmpfs", disk], check=True)
    try:
        end, record = room / "full.end", disk / "node.record"
        field = Long(sys.executable, FIELD, program, HALDEN, ADDRESSES, f"--stop-file={end}")
        station = Long(program, "node", HALDEN, "HALDEN", "--addresses", ADDRESSES, "--record", record, "--record-size", SIZE, "--stop-file", end)
        for _ in range(600):
            if len(station.err) > 1:
                break
            time.sleep(0.1)
        told = "the record can't be written any more"
        time.sleep(2)
        well("a full disk is told once, and the node goes on", station.err.count(told) == 1 and station.process.poll() is None, "\n".join(station.err))
        station.ends_well("the node without a disk", end)
        field.wait()
        whole = all(it.read_bytes().endswith(b"\n") for it in parts_of(record)[:-1])
        well(f"what is left of its record: {len(parts_of(record))} parts", whole and len(parts_of(record)) > 1)
        for it in parts_of(record):
            it.unlink()
        ran = run(program, "run", SMALL, "--script", SCRIPT, "--record", disk / "run.session", "--record-size", SIZE, "--for", 60000)
        well("a run on a full disk", ran.returncode == 1 and ran.stderr.endswith("cannot run\n"), ran.stderr)
        text = b"".join(it.read_bytes() for it in parts_of(disk / "run.session"))
        left = room / "left.session"
        left.write_bytes(text[: text.rfind(b"\n") + 1])
        ran = run(program, "replay", SMALL, left)
        well("its record up to the cut", len(text) > 2 * SIZE and ran.stdout == "same\n", ran.stdout + ran.stderr)
    finally:
        subprocess.run(["umount", disk], check=True)


def main(program, speed=""):
    with tempfile.TemporaryDirectory(prefix="zendurai-service-") as at:
        room = pathlib.Path(at)
        refusals(program, room)
        signal(program, room)
        sessions(program, room)
        nodes(program, room)
        if speed != "fast" and os.geteuid() == 0:
            full_disk(program, room)


if __name__ == "__main__":
    if len(sys.argv) not in (2, 3):
        sys.exit(__doc__)
    main(os.path.abspath(sys.argv[1]), *sys.argv[2:])
