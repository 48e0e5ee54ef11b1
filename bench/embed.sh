#!/usr/bin/env bash
# Proves and builds the controllers, the interlocking and the codecs for C by both of the kit's compilers, as one static library, and tries
# it from C: stored records again, byte for byte; hostile datagrams, clocks and drivers, with canaries and sanitizers; a whole station in
# one process; no C library; sizes, stack and memory against bounds; the header and the examples without a warning. It leaves the library
# with its headers in crates/controllers_c/out/zendurai/. Needs gcc and clang.
# usage: bench/embed.sh [STEPS [SEED]]
set -eu
bench=$(cd "$(dirname "$0")" && pwd)
top=$(dirname "$bench")
crates=$top/crates
examples=$top/examples/embedded
layout=$top/examples/small.toml
record=$crates/stored_runs/data/A.record
steps=${1:-10000000}
seed=${2:-1}
left=$crates/controllers_c/out/zendurai
room=$(mktemp -d)
trap 'rm -rf "$room"' EXIT
warnings="-Wall -Wextra -Wpedantic -Werror"
headers="-I$crates/controllers_c -I$crates/interlocking_c -I$crates/codec"

# within LIMIT WHAT NUMBER: ends where the number is above the limit
within() {
    echo "$2: $3 (at most $1)"
    [ "$3" -le "$1" ]
}

# build NAME FLAGS..: one library of the three crates, each of whose objects has a name of its own
build() {
    local name=$1 crate
    shift
    mkdir "$room/$name"
    for crate in controllers_c interlocking_c codec; do
        (cd "$crates/$crate" && rt lib "$@" >"$room/said" 2>&1) || { cat "$room/said"; exit 1; }
        cp "$crates/$crate/out/lib$crate.a" "$room/$name/"
        (cd "$room/$name" && ar x "lib$crate.a")
    done
    ar rcs "$room/$name/libzendurai.a" "$room/$name"/*.o
}

# undefined LIBRARY..: the words that are defined in none of them
undefined() {
    nm -u "$@" | awk '$1 == "U" { print $2 }' | sort -u | tr '\n' ' '
}

# compile TO SOURCE.. FLAGS..: a program of C11, without a warning
compile() {
    local to=$1
    shift
    cc -std=c11 $warnings $headers -o "$room/$to" "$@"
}

# try_library NAME TEXT STACK INTERLOCKING-STACK NEEDS: tries one build; nothing but the words of NEEDS may be undefined in it
try_library() {
    local name=$1 library=$room/$1/libzendurai.a
    echo "-- built by $name"
    compile replay -O2 "$bench/embed_replay.c" "$examples/heap.c" "$library"
    "$bench/records/replay.sh" "$room/replay"
    compile hostile -O2 "$bench/embed_hostile.c" "$library"
    "$room/hostile" "$record" "$steps" "$seed"
    compile station -O2 "$bench/embed_hostile_station.c" "$library"
    "$room/station" "$layout" "$steps" "$seed"
    compile hostile -O1 -g -fsanitize=address,undefined -fno-sanitize-recover=all "$bench/embed_hostile.c" "$library"
    "$room/hostile" "$record" "$steps" "$((seed + 1))"
    compile station -O1 -g -fsanitize=address,undefined -fno-sanitize-recover=all "$bench/embed_hostile_station.c" "$library"
    "$room/station" "$layout" "$steps" "$((seed + 1))"
    compile stack -O2 "$bench/embed_stack.c" "$examples/arena.c" "$library"
    "$room/stack" "$record" "$3"
    compile stack -O2 -DSTACK "$bench/embed_hostile_station.c" "$library"
    "$room/stack" "$layout" 200000 "$seed" "$4"
    compile free -O2 -ffreestanding -fno-builtin -fno-stack-protector -fno-tree-loop-distribute-patterns -nostdlib -static -DARENA_BYTES=4194304 \
        -ffunction-sections -fdata-sections -Wl,--gc-sections "$bench/embed_free.c" "$examples/arena.c" "$library"
    "$room/free"
    echo "undefined: $(undefined "$library")"
    [ "$(undefined "$library")" = "$5" ]
    for crate in controllers_c interlocking_c codec; do
        echo "$crate: $(size -t "$room/$name/lib$crate.a" | awk 'END { print $1 }') bytes of text; undefined: $(undefined "$room/$name/lib$crate.a")"
    done
    within "$2" "text of the library" "$(size -t "$library" | awk 'END { print $1 }')"
    within 256 "data and bss of the library, which are constants" "$(size -t "$library" | awk 'END { print $2 + $3 }')"
}

build rattle --backend rattle
build llvm
try_library llvm 524288 8192 16384 "memcpy memmove memset rattle_alloc rattle_dealloc rattle_realloc "
try_library rattle 2097152 24576 65536 "rattle_alloc rattle_dealloc rattle_realloc "

echo "-- the header and the examples"
printf '#include "zendurai.h"\nint main() { return sizeof(zendurai_point) == 16 && sizeof(zendurai_interlocking) == 16 ? 0 : 1; }\n' >"$room/header.cpp"
for compiler in g++ clang++; do
    "$compiler" -std=c++17 $warnings $headers -o "$room/header" "$room/header.cpp"
    "$room/header"
done
for compiler in gcc clang; do
    for example in signal point detector interlocking; do
        "$compiler" -std=c11 -O2 $warnings $headers -o "$room/$example" "$examples/$example.c" "$examples/heap.c" "$room/llvm/libzendurai.a"
    done
done
within 90 "lines of signal.c" "$(wc -l <"$examples/signal.c")"
printf '#include "zendurai.h"\nint main(void) { static const uint8_t text[] = "x"; struct zendurai_signal none = {NULL, 0}; return zendurai_layout_read(text, 1) == 1 && zendurai_signal_tick(&none, 0) == ZENDURAI_NOT_STARTED ? 0 : 1; }\n' >"$room/all.c"
compile all -O2 "$room/all.c" "$examples/heap.c" "$room/llvm/libzendurai.a"
"$room/all"

mkdir -p "$left"
cp "$crates"/*/zendurai*.h "$room/llvm/libzendurai.a" "$left/"
echo "all of it is as it should be; $left"
