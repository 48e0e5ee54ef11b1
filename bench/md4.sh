#!/usr/bin/env bash
# Measures MD4 over a buffer of 64 MiB: this repository's, as LLVM builds it, against OpenSSL's.
# usage: bench/md4.sh [ROUNDS]. Each round times both, by the processor time that they use; the best
# of all rounds counts. It wants a quiet machine: other work takes more from whichever it meets.
set -eu
rounds=${1:-20}
cd "$(dirname "$0")/../crates/rasta_pdu_speed"
rt run -- md4 1 0 >/dev/null 2>&1 # proves it where it isn't yet, and leaves out/rasta_pdu_speed
exec python3 - "$PWD/out/rasta_pdu_speed" "$rounds" <<'PY'
import os, platform, re, resource, subprocess, sys

program, rounds = sys.argv[1], int(sys.argv[2])
MEBIBYTES, MORE = 64, 4
SIZE = MEBIBYTES << 20


def used():
    usage = resource.getrusage(resource.RUSAGE_CHILDREN)
    return usage.ru_utime + usage.ru_stime


def seconds(more):
    """The processor time of a run: one pass over the buffer, and so many more."""
    before = used()
    subprocess.run([program, "md4", str(MEBIBYTES), str(more)], check=True, stdout=subprocess.DEVNULL)
    return used() - before


def openssl():
    """OpenSSL's bytes a second, or 0 where it or its old digests are missing."""
    command = ["openssl", "speed", "-mr", "-seconds", "1", "-bytes", str(SIZE)]
    command += ["-provider", "legacy", "-provider", "default", "-evp", "md4"]
    try:
        text = subprocess.run(command, capture_output=True, text=True).stdout
    except FileNotFoundError:
        return 0
    found = re.search(r"^\+F:\d+:md4:([0-9.]+)", text, re.M)
    return float(found.group(1)) if found else 0


one, many, theirs = [], [], []
for _ in range(rounds):
    one.append(seconds(0))
    many.append(seconds(MORE))
    theirs.append(openssl())

# What more passes take is digesting alone, without the program's start and the filling of the buffer.
ours = SIZE * MORE / (min(many) - min(one))
names = (line.split(":", 1)[1].strip() for line in open("/proc/cpuinfo") if line.startswith("model name"))
print(f"{next(names, platform.machine())}, {os.cpu_count()} processors, load {os.getloadavg()[0]:.1f}, best of {rounds}")
print(f"md4 of this repository: {ours / 1e6:.0f} MB/s")
if max(theirs):
    print(f"md4 of OpenSSL: {max(theirs) / 1e6:.0f} MB/s")
    print(f"ratio: {ours / max(theirs):.3f}")
else:
    print("no OpenSSL with MD4 to compare with")
PY
