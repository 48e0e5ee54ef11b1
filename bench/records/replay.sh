#!/usr/bin/env bash
# Replays each stored record of a process of `station node` through the library for C, by embed_replay or a command that runs it.
# The records are those of one run of the small station, as bench/embed_station.py leaves them.
# usage: bench/records/replay.sh COMMAND ..
set -eu
cd "$(dirname "$0")"
"$@" signal S1.record 2 1 S1 IXL1 1
"$@" point P1.record 10 1 P1 IXL1 1
"$@" detector D1.record 20 1 D1 IXL1 1 GA GP G1 G2
"$@" interlocking IXL1.record ../../examples/small.toml
