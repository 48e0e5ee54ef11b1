#!/usr/bin/env bash
# Runs the built programs `station` and `pair` on what doesn't end or is too long, with 6 GB of address space: each has to tell
# that it can't read it. Files at the greatest length have to be read. `rt run` in crates/station and crates/pair builds them.
#   bench/endless_files.sh [STATION PAIR]
set -eu
top=$(cd "$(dirname "$0")/.." && pwd)
station=${1:-$top/crates/station/out/station}
pair=${2:-$top/crates/pair/out/pair}
room=$(mktemp -d)
trap 'rm -rf "$room"' EXIT
cd "$room"
ulimit -v 6291456
cp "$top/examples/small.toml" small.toml
faults=0

# Whether a call ended with a status and told a line: $1 and $2, and the call behind them.
expect() {
    local status=0 wanted=$1 line=$2
    shift 2
    timeout 60 "$@" >out 2>err || status=$?
    if [ "$status" -ne "$wanted" ] || [ "$(head -n 1 err)" != "$line" ]; then
        echo "FAIL ($status, $(head -c 80 err)): $*"
        faults=$((faults + 1))
    fi
}

# A file of so many bytes that begins as another one, and goes on with line feeds.
padded() {
    cp "$1" "$3"
    head -c $(($2 - $(stat -c %s "$1"))) /dev/zero | tr '\0' '\n' >>"$3"
}

expect 1 "cannot read /dev/zero" "$station" check /dev/zero
expect 1 "cannot read /dev/zero" "$station" sim small.toml /dev/zero
expect 1 "cannot read /dev/zero" "$station" replay small.toml /dev/zero
expect 1 "cannot read /dev/zero" "$station" run small.toml --script /dev/zero --record record --for 1000
expect 1 "cannot read /dev/zero" "$pair" /dev/zero

# Pipes that don't end.
mkfifo pipe
for call in "$station check pipe" "$station sim small.toml pipe" "$pair pipe"; do
    yes >pipe 2>/dev/null &
    expect 1 "cannot read pipe" $call
done
endless() { yes | "$pair"; }
export -f endless; export pair
expect 1 "cannot read standard input" bash -c endless

# The greatest lengths, and one byte more.
padded small.toml $((1 << 20)) layout
expect 0 "" "$station" check layout
padded small.toml $(((1 << 20) + 1)) layout
expect 1 "cannot read layout" "$station" check layout
: >empty
padded empty $((64 << 20)) lines
expect 0 "" bash -c "cat lines | '$pair'"
expect 0 "" bash -c "cat lines | '$station' sim small.toml /dev/stdin"
echo >>lines
expect 1 "cannot read standard input" bash -c "cat lines | '$pair'"
expect 1 "cannot read /dev/stdin" bash -c "cat lines | '$station' sim small.toml /dev/stdin"
expect 0 "" "$station" sim small.toml lines

# A file of more than 4 GiB isn't read at all.
truncate -s $(((4 << 30) + 1)) huge
expect 1 "cannot read huge" "$station" sim small.toml huge
expect 1 "cannot read huge" "$pair" huge

[ "$faults" -eq 0 ] && echo "all as it has to be"
exit $((faults > 0))
