#!/usr/bin/env bash
# Measures steps of an interlocking at the limits (32 signals, 32 points, 16 detectors, 64 sections, 64 routes), as LLVM builds
# it, against writing and reading one PDU of 99 bytes, and tells whether each is within its bound:
#
# - a tick at which nothing is due, where 32 routes show proceed: at most 4;
# - a datagram with one report beside its own reading, where 24 do, so that each detector has a section that none of them leads
#   over: at most 3. What it takes to write and to read the datagram is measured by itself, and taken off.
#
# The status is 1 where a bound is exceeded. usage: bench/ixl.sh [ROUNDS]. The best of all rounds counts.
set -eu
rounds=${1:-9}
here=$(cd "$(dirname "$0")/.." && pwd)
# proves each where it isn't yet, and leaves out/rasta_pdu_speed and out/ixl_speed
(cd "$here/crates/rasta_pdu_speed" && rt run -- both 1 3 >/dev/null 2>&1)
(cd "$here/crates/ixl_speed" && rt run -- data/ring.toml 24 report 3 >/dev/null 2>&1)
exec python3 - "$here/crates" "$rounds" <<'PY'
import os, platform, resource, subprocess, sys

crates, rounds = sys.argv[1], int(sys.argv[2])
PDU = [f"{crates}/rasta_pdu_speed/out/rasta_pdu_speed", "both", "1"]
IXL = [f"{crates}/ixl_speed/out/ixl_speed", f"{crates}/ixl_speed/data/ring.toml"]
PDUS, TICKS, PASSES = 2_000_000, 1_000_000, 30_000
REPORTS = 32  # in a pass: two of each detector


def used():
    usage = resource.getrusage(resource.RUSAGE_CHILDREN)
    return usage.ru_utime + usage.ru_stime


def once(command, wanted):
    """The processor time of a run."""
    before = used()
    said = subprocess.run(command, check=True, stdout=subprocess.PIPE, text=True).stdout.strip()
    if wanted and said != wanted:
        sys.exit(f"{' '.join(command)} says {said}, and not {wanted}")
    return used() - before


def best(*commands):
    """The least processor time of each command. They take turns, so that other work disturbs all alike."""
    took = [[once(command, wanted) for command, wanted in commands] for _ in range(rounds)]
    return [min(times) for times in zip(*took)]


def ixl(routes, work, times, each=1):
    """What a run of the interlocking is, and what it says where each signal shows proceed and nothing is refused."""
    done = None if work == "write" else f"{routes} {times * each}"
    return [*IXL, str(routes), work, str(times)], done


def tell(what, seconds, a_pdu, bound=None):
    ratio = seconds / a_pdu
    verdict = "" if bound is None else f", {'within' if ratio <= bound else 'beyond'} {bound}"
    print(f"{what}: {seconds * 1e9:.0f} ns, {ratio:.2f} times writing and reading a PDU of 99 bytes{verdict}")
    return bound is None or ratio <= bound


names = (line.split(":", 1)[1].strip() for line in open("/proc/cpuinfo") if line.startswith("model name"))
print(f"{next(names, platform.machine())}, {os.cpu_count()} processors, load {os.getloadavg()[0]:.1f}, best of {rounds}")
pdus, all_up, ticks, few_up, write, read, report = best(
    ([*PDU, str(PDUS)], None),
    ixl(32, "tick", 0), ixl(32, "tick", TICKS),
    ixl(24, "tick", 0), *(ixl(24, work, PASSES, REPORTS) for work in ("write", "read", "report")))
a_pdu = pdus / PDUS
written, read, reported = ((took - few_up) / (PASSES * REPORTS) for took in (write, read, report))
print(f"writing and reading a PDU of 99 bytes: {a_pdu * 1e9:.0f} ns")
is_within = tell("a tick at which nothing is due", (ticks - all_up) / TICKS, a_pdu, 4)
tell("a datagram with one report", reported - written, a_pdu)
tell("reading it alone", read - written, a_pdu)
is_within &= tell("a datagram with one report beside its own reading", reported - read, a_pdu, 3)
sys.exit(not is_within)
PY
