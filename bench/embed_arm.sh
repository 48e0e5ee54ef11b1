#!/usr/bin/env bash
# Builds the library for C for aarch64, tells how large it is, and runs what tries it on an emulator: the stored records again, byte for byte,
# and hostile steps. Needs gcc-aarch64-linux-gnu and qemu-user.
# usage: bench/embed_arm.sh [STEPS [SEED]]
set -eu
bench=$(cd "$(dirname "$0")" && pwd)
top=$(dirname "$bench")
crates=$top/crates
examples=$top/examples/embedded
room=$(mktemp -d)
trap 'rm -rf "$room"' EXIT
for crate in controllers_c interlocking_c codec; do
    (cd "$crates/$crate" && rt lib --target aarch64-unknown-linux-gnu >"$room/said" 2>&1) || { cat "$room/said"; exit 1; }
    cp "$crates/$crate/out/lib$crate.a" "$room/"
    (cd "$room" && ar x "lib$crate.a")
    echo "$crate: $(aarch64-linux-gnu-size -t "$room/lib$crate.a" | awk 'END { print $1 " bytes of text, " $2 + $3 " of data" }')"
done
ar rcs "$room/libzendurai.a" "$room"/*.o
for program in replay hostile hostile_station; do
    aarch64-linux-gnu-gcc -std=c11 -O2 -static -Wall -Wextra -Wpedantic -Werror -I"$crates/controllers_c" -I"$crates/interlocking_c" -I"$crates/codec" \
        -o "$room/$program" "$bench/embed_$program.c" $([ $program = replay ] && echo "$examples/heap.c") "$room/libzendurai.a"
done
"$bench/records/replay.sh" qemu-aarch64 "$room/replay"
qemu-aarch64 "$room/hostile" "$crates/stored_runs/data/A.record" "${1:-200000}" "${2:-1}"
qemu-aarch64 "$room/hostile_station" "$top/examples/small.toml" "${1:-200000}" "${2:-1}"
