#!/usr/bin/env bash
# Proves and builds the codecs for C, and tries them from C with changes drawn from a seed. Needs a C compiler.
# usage: bench/codec.sh [CHANGES [SEED]]
set -eu
bench=$(cd "$(dirname "$0")" && pwd)
kit=$(dirname "$(rt doc)")
room=$(mktemp -d)
trap 'rm -rf "$room"' EXIT
cd "$bench/../crates/codec"
rt lib >/dev/null # leaves out/libcodec.a
cc -O2 -Wall -Wextra -I. -o "$room/codec" "$bench/codec.c" out/libcodec.a "$kit/c/liblibc_c.a"
"$room/codec" "$bench/../crates/station/data/small.toml" "$@"
