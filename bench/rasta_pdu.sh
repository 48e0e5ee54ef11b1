#!/usr/bin/env bash
# Measures writing and reading a data PDU, as LLVM builds them, against MD4 alone over the same bytes.
# usage: bench/rasta_pdu.sh [ROUNDS]. Each round times each work, by the processor time that it uses; the
# best of all rounds counts, so that other work on the machine disturbs little.
set -eu
rounds=${1:-15}
cd "$(dirname "$0")/../crates/rasta_pdu_speed"
rt run -- both 1 3 >/dev/null 2>&1 # proves it where it isn't yet, and leaves out/rasta_pdu_speed
exec python3 - "$PWD/out/rasta_pdu_speed" "$rounds" <<'PY'
import os, platform, resource, subprocess, sys

program, rounds = sys.argv[1], int(sys.argv[2])
TIMES = 1_000_000


def used():
    usage = resource.getrusage(resource.RUSAGE_CHILDREN)
    return usage.ru_utime + usage.ru_stime


def nanoseconds(work, items):
    """The processor time of one pass of a work, in the best round."""
    best = None
    for _ in range(rounds):
        before = used()
        subprocess.run([program, work, str(items), str(TIMES)], check=True, stdout=subprocess.DEVNULL)
        took = used() - before
        best = took if best is None else min(best, took)
    return best / TIMES * 1e9


names = (line.split(":", 1)[1].strip() for line in open("/proc/cpuinfo") if line.startswith("model name"))
print(f"{next(names, platform.machine())}, {os.cpu_count()} processors, load {os.getloadavg()[0]:.1f}, best of {rounds}")
for items, size in ((1, 99), (3, 225)):
    digest, write, both = (nanoseconds(work, items) for work in ("digest", "write", "both"))
    print(f"{size} bytes: MD4 {digest:.0f} ns, write {write:.0f} ns ({write / digest:.2f} of MD4), "
          f"write and read {both:.0f} ns ({both / 2 / digest:.2f} of MD4 each)")
PY
