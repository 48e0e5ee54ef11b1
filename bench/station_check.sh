#!/usr/bin/env bash
# Measures `station check` on stations at every limit: 32 signals, 32 points, 64 sections, 64 routes, 128 tracks, 16
# borders, 16 detectors, and paths of 64 elements. usage: bench/station_check.sh [ROUNDS]. The best of all rounds counts.
# usage: bench/station_check.sh --write FOLDER leaves the stations as files there and measures nothing.
set -eu
here=$(cd "$(dirname "$0")/.." && pwd)
if [ "${1:-}" != --write ]; then
    (cd "$here/crates/station" && rt run -- check data/small.toml >/dev/null 2>&1) # proves it where it isn't yet, and leaves out/station
fi
exec python3 - "$here/crates/station/out/station" "$@" <<'PY'
import os, platform, subprocess, sys, tempfile, time

LINES, LOOPS, TRACKS = 2, 8, 6  # a line has 8 loops of two points, and 6 tracks behind each: 64 elements


def listed(words):
    return "[" + ",".join(f'"{word}"' for word in words) + "]"


def route(line, number, extra):
    """Each route of a line takes its loops by other sides; the bits of its number say which."""
    name = f"R{line}x{number}"
    path, points = [], []
    for loop in range(LOOPS):
        first, second = ("left", "right") if number >> (loop % 5) & 1 else ("right", "left")
        path += [f"P{line}x{loop}a.{first}", f"P{line}x{loop}b.tip"]
        points += [f'P{line}x{loop}a="{first}"', f'P{line}x{loop}b="{second}"']
        path += [f"T{line}x{loop}x{track}.b" for track in range(TRACKS)]
    assert len(path) == 64
    return (f'{{name="{name}",entry="S{line}",exit="E{line}",path={listed(path)},points={{{",".join(points)}}},'
            f'approach={listed([f"G{line}x0"])},extra={listed(other for other in extra if other != name)}}}')


def station(all_extra):
    joints, tracks, points = [], [], []
    for line in range(LINES):
        at = f"A{line}.b"
        joints.append((f"W{line}.end", f"A{line}.a"))
        tracks.append((f"A{line}", f"G{line}x0"))
        for loop in range(LOOPS):
            first, second = f"P{line}x{loop}a", f"P{line}x{loop}b"
            joints += [(at, f"{first}.tip"), (f"{first}.left", f"{second}.right"), (f"{first}.right", f"{second}.left")]
            points += [(first, f"G{line}x{4 * loop}"), (second, f"G{line}x{4 * loop}")]
            at = f"{second}.tip"
            for track in range(TRACKS):
                joints.append((at, f"T{line}x{loop}x{track}.a"))
                tracks.append((f"T{line}x{loop}x{track}", f"G{line}x{4 * loop + 1 + track // 2}"))
                at = f"T{line}x{loop}x{track}.b"
        joints.append((at, f"E{line}.end"))
    spare = 128 - len(tracks)
    tracks += [(f"X{number}", "G0x0") for number in range(spare)]
    signals = [(f"S{line}", f"A{line}.b") for line in range(LINES)]
    signals += [(f"V{number}", f"X{number}.a") for number in range(32 - LINES)]
    borders = [f"{side}{line}" for line in range(LINES) for side in "WE"] + [f"B{number}" for number in range(16 - 2 * LINES)]
    sections = [f"G{line}x{section}" for line in range(LINES) for section in range(4 * LOOPS)]
    names = [f"R{line}x{number}" for line in range(LINES) for number in range(32)]
    extra = names if all_extra else []
    entries = [
        ("section", listed(sections)),
        ("border", listed(borders)),
        ("joint", "[" + ",".join(listed(joint) for joint in joints) + "]"),
        ("track", "[" + ",".join(f'{{name="{name}",section="{section}"}}' for name, section in tracks) + "]"),
        ("point", "[" + ",".join(f'{{name="{name}",id={100 + n},section="{section}"}}' for n, (name, section) in enumerate(points)) + "]"),
        ("signal", "[" + ",".join(f'{{name="{name}",id={200 + n},at="{at}"}}' for n, (name, at) in enumerate(signals)) + "]"),
        ("detector", "[" + ",".join(f'{{name="D{n}",id={300 + n},sections={listed(sections[4 * n:4 * n + 4])}}}' for n in range(16)) + "]"),
        ("route", "[" + ",".join(route(line, number, extra) for line in range(LINES) for number in range(32)) + "]"),
        ("station", '{name="IXL1",id=1}'),
    ]
    assert (len(signals), len(points), len(sections), len(tracks), len(borders)) == (32, 32, 64, 128, 16)
    return "".join(f"{key} = {value}\n" for key, value in entries)


STATIONS = [
    ("two lines of 32 routes each", station(False), 1 + 2 * 32 * 31 // 2),
    ("each route lists all others", station(True), 1 + 64 * 63 // 2),
]
program, words = sys.argv[1], sys.argv[2:]
if words[:1] == ["--write"]:
    for number, (_, text, _) in enumerate(STATIONS):
        with open(os.path.join(words[1], f"largest{number}.toml"), "w") as file:
            file.write(text)
    sys.exit()

rounds = int(words[0]) if words else 5
names = (line.split(":", 1)[1].strip() for line in open("/proc/cpuinfo") if line.startswith("model name"))
print(f"{next(names, platform.machine())}, {os.cpu_count()} processors, load {os.getloadavg()[0]:.1f}, best of {rounds}")
for what, text, lines in STATIONS:
    with tempfile.NamedTemporaryFile("w", suffix=".toml") as file:
        file.write(text)
        file.flush()
        took = []
        for _ in range(rounds):
            before = time.perf_counter()
            run = subprocess.run([program, "check", file.name], capture_output=True, text=True)
            took.append(time.perf_counter() - before)
            if run.returncode != 0 or run.stdout.count("\n") != lines:
                sys.exit(f"{what}: status {run.returncode}, {run.stdout[:200]}{run.stderr[:200]}")
    print(f"{what}, {len(text)} bytes: {min(took) * 1000:.1f} ms, {lines} lines")
PY
