#!/bin/sh
# Builds the floor's program and runs all its tests; the last line is `N passed, M failed`.
#
#   app/test.sh [ARCHIVE]
#
# ARCHIVE  the proved archive, as for app/build.sh
#
# The tests are those in the sources (src/), of the numbers in host/benchdowel.h (tests/limits.c), and of the program as it is used
# (tests/*.py, each of which says what it holds against what).
set -eu

. "$(dirname -- "$0")/build.sh"

has python3 || need python3
has chromium || need chromium
has strace || need strace
get "$build/apt.log"
export PYTHONDONTWRITEBYTECODE=1

passed=0
failed=0
# Runs a test and adds its last `N passed` and `M failed`. One that ends in trouble has failed, whatever it counted.
held() {
    name=$1
    shift
    echo "== $name"
    status=0
    "$@" >"$build/$name.log" 2>&1 || status=$?
    grep -E 'FAILED|panicked|^error|Error|passed' "$build/$name.log" || tail -n 5 "$build/$name.log"
    last() { grep -Eo "[0-9]+ $1" "$build/$name.log" | tail -n 1 | cut -d ' ' -f 1; }
    bad=$(last failed)
    [ $status -eq 0 ] && [ -n "$bad" ] || [ "${bad:-0}" -gt 0 ] || bad=1
    good=$(last passed)
    passed=$((passed + ${good:-0}))
    failed=$((failed + bad))
}

compiler=cc
[ -z "$target" ] || compiler=x86_64-linux-gnu-gcc
$compiler -O1 -pthread -I "$project/host" -o "$build/limits" tests/limits.c "$BENCHDOWEL_ARCHIVE"

held sources cargo --config "$build/cargo.toml" test --release --offline
held limits $emulator "$build/limits"
for test in words printed checks night nights killed wall; do
    held $test python3 tests/$test.py "$build/benchdowel" "$build/tests/$test"
done
echo "$passed passed, $failed failed"
[ $failed -eq 0 ]
