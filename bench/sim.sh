#!/usr/bin/env bash
# Measures `station sim` in long flows of the small station and of one at every limit, as LLVM builds it: an event against
# writing and reading one PDU of 99 bytes, ten times as long a flow, and the memory that each datagram takes, of which it tells
# whether it is within its bound; hostile lists (bench/hostile.py) of 99,000 lines and of 311,000, of which it tells whether the
# longer one keeps its bound; and `station replay` of a million lines. usage: bench/sim.sh [ROUNDS]. The best of all rounds
# counts. The status is 1 where a bound is exceeded.
set -eu
rounds=${1:-3}
here=$(cd "$(dirname "$0")/.." && pwd)
(cd "$here/crates/rasta_pdu_speed" && rt run -- both 1 3 >/dev/null 2>&1)       # proves it where it isn't yet
(cd "$here/crates/station" && rt run -- check data/small.toml >/dev/null 2>&1) # likewise out/station
exec python3 - "$here" "$rounds" <<'PY'
import os, platform, resource, subprocess, sys, tempfile

here, rounds = sys.argv[1], int(sys.argv[2])
station, pdu = f"{here}/crates/station/out/station", f"{here}/crates/rasta_pdu_speed/out/rasta_pdu_speed"
SHORT, LONG = 60_000, 600_000
ROUND = 10
HEARTBEAT = 300  # after so many milliseconds in which it sent nothing an end sends a heartbeat, of 36 bytes
# bytes for each: 84 as long as no index finds copies, 12 of the index for its place, and at most 4 for the buckets, of which each
# takes 8 bytes and has at least two places when it is made
MOST_MEMORY = 84 + 12 + 4
HOSTILE = 99_000, 311_000
MOST_TIMES = 4  # as long for three times the lines


def used():
    usage = resource.getrusage(resource.RUSAGE_CHILDREN)
    return usage.ru_utime + usage.ru_stime


def best(command, times=1):
    took = []
    for _ in range(rounds):
        before = used()
        for _ in range(times):
            subprocess.run(command, check=True, stdout=subprocess.DEVNULL)
        took.append((used() - before) / times)
    return min(took)


def events(path, millis):
    with open(path, "w") as text:
        text.write(f"flow 8000\nresume\nset R1\nflow {millis}\n")
    return path


def tell(name, layout, nodes, room, a_pdu):
    short = best([station, "sim", layout, events(f"{room}/short", SHORT)], 10)
    long = best([station, "sim", layout, events(f"{room}/long", LONG)])
    # each round is a step of time and a tick of every node; datagrams come on top of that, and aren't counted
    count = (LONG + 8000) // ROUND * (nodes + 1)
    each = long / count * 1e9
    print(f"{name}: {count} events: {long:.2f} s, {each:.0f} ns an event, {each / a_pdu:.2f} of writing and reading a PDU of 99 bytes ({a_pdu:.0f} ns)")
    print(f"{name}: a flow of {LONG} ms takes {long / short:.1f} times as long as one of {SHORT} ms")


def peak(command):
    """The most memory that a run takes, in bytes. What this process took when it began the run is counted in."""
    run = subprocess.Popen(command, stdout=subprocess.DEVNULL)
    _, status, usage = os.wait4(run.pid, 0)
    run.returncode = os.waitstatus_to_exitcode(status)
    if run.returncode or usage.ru_maxrss <= resource.getrusage(resource.RUSAGE_SELF).ru_maxrss:
        sys.exit(f"the memory of {' '.join(command)} can't be told")
    return usage.ru_maxrss * 1024


def tell_memory(layout, links, room):
    """The flows are so long that all that is sent between their ends are heartbeats, one of each end of each link at a time."""
    flows = 10, 40
    took = []
    for count in flows:
        with open(f"{room}/flows", "w") as file:
            file.write("flow 8000\n" + f"flow {LONG}\n" * count)
        took.append(peak([station, "sim", layout, f"{room}/flows"]))
    sent = (flows[1] - flows[0]) * LONG // HEARTBEAT * 2 * links
    each = (took[1] - took[0]) / sent
    is_within = each <= MOST_MEMORY
    print(f"the small station: {each:.1f} bytes for each of {sent} heartbeats, {'within' if is_within else 'beyond'} {MOST_MEMORY}")
    return is_within


def hostile_list(kind, lines, room):
    with open(f"{room}/hostile", "w") as text:
        subprocess.run([f"{here}/bench/hostile.py", "sim", kind, str(lines)], check=True, stdout=text)
    return text.name


def tell_hostile(kind, layout, room):
    short, long = (best([station, "sim", layout, hostile_list(kind, lines, room)]) for lines in HOSTILE)
    is_within = long <= MOST_TIMES * short
    print(f"{kind}: {HOSTILE[0]} lines: {short:.2f} s; {HOSTILE[1]}: {long:.2f} s, {long / short:.1f} times as long, {'within' if is_within else 'beyond'} {MOST_TIMES}")
    return is_within


def tell_replay(layout, room):
    with open(f"{room}/session", "w") as text:
        text.write("tick S1 = ok\n" * 1_000_000)
    took = best([station, "replay", layout, f"{room}/session"])
    most = resource.getrusage(resource.RUSAGE_CHILDREN).ru_maxrss // 1024
    print(f"a session of a million lines is read and replayed in {took:.2f} s; the most memory of all runs is {most} MB")


names = (line.split(":", 1)[1].strip() for line in open("/proc/cpuinfo") if line.startswith("model name"))
print(f"{next(names, platform.machine())}, {os.cpu_count()} processors, load {os.getloadavg()[0]:.1f}, best of {rounds}")
a_pdu = best([pdu, "both", "1", "1000000"]) / 1e6 * 1e9
with tempfile.TemporaryDirectory() as room:
    subprocess.run([f"{here}/bench/station_check.sh", "--write", room], check=True, stdout=subprocess.DEVNULL)
    largest = max((f"{room}/{name}" for name in os.listdir(room)), key=os.path.getsize)
    tell("the small station", f"{here}/examples/small.toml", 6, room, a_pdu)
    tell("a station at every limit", largest, 81, room, a_pdu)
    is_within = tell_memory(f"{here}/examples/small.toml", 5, room)
    for kind in ("openings", "copies"):
        is_within = tell_hostile(kind, f"{here}/examples/small.toml", room) and is_within
    tell_replay(f"{here}/examples/small.toml", room)
sys.exit(not is_within)
PY
