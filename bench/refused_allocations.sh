#!/usr/bin/env bash
# Runs each test of a crate with one allocation refused, for each allocation that the test makes, and then with all refused from
# that one on. It has to hold, or to stop and tell want of memory: by a fault for memory, or as the test itself asserts that a
# call which takes memory succeeds. So a call that lacks memory ends with its fault for memory. Needs a C compiler.
# usage: bench/refused_allocations.sh CRATE [MOST]. At most the first MOST allocations of a test are refused. TESTS=FILE takes
# the tests that stand built in a file.
set -eu
[ $# -eq 1 ] || [ $# -eq 2 ] || { sed -n 5p "$0" >&2; exit 2; }
most=${2:-1000000}
bench=$(cd "$(dirname "$0")" && pwd)
room=$(mktemp -d)
trap 'rm -rf "$room"' EXIT
cc -shared -fPIC -O1 -o "$room/refuse.so" "$bench/refuse_malloc.c" -ldl
cd "$bench/../crates/$1"
tests=${TESTS:-out/$1_tests}
[ -n "${TESTS:-}" ] || rt test >/dev/null 2>&1 # leaves out/CRATE_tests

# How a test tells that memory was lacking.
lacking='there is memory|AllocError|OutOfMemory|out of memory|session fault 7 at line|error: Memory|fault: Memory|assertion failed: .*\.is_ok\(\)'

# Runs a test with allocations refused: $1 is the variable that says which, $2 their number. Its status is left in $status,
# what it tells in the file `told`.
run() {
    status=0
    env "$1=$2" LD_PRELOAD="$room/refuse.so" "$tests" "$test" >"$room/told" 2>&1 || status=$?
}

# Whether the test that has just run held, or stopped by itself (134, 101) and told want of memory.
holds_or_tells() {
    [ "$status" -eq 0 ] && return 0
    [ "$status" -eq 134 ] || [ "$status" -eq 101 ] || return 1
    grep -qE "$lacking" "$room/told"
}

failed=0
for test in $("$tests" --list | sed -n 's/: test$//p'); do
    COUNTED_CALLS=$room/calls LD_PRELOAD=$room/refuse.so "$tests" "$test" >/dev/null
    calls=$(cat "$room/calls")
    stopped=0 wrong=0
    for number in $(seq 1 $((calls < most ? calls : most))); do
        run REFUSED_CALL "$number" 2>/dev/null
        [ "$status" -eq 0 ] || stopped=$((stopped + 1))
        holds_or_tells || { wrong=$((wrong + 1)); echo "$test, $number alone: status $status: $(head -c 300 "$room/told" | tr '\n' ' ')"; }
        run REFUSED_FROM "$number" 2>/dev/null
        holds_or_tells || { wrong=$((wrong + 1)); echo "$test, all from $number on: status $status: $(head -c 300 "$room/told" | tr '\n' ' ')"; }
    done
    echo "$test: $calls allocations, stops with $stopped of them refused alone, $wrong times wrong"
    [ "$wrong" -eq 0 ] || failed=1
done
exit "$failed"
