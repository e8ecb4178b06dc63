#!/usr/bin/env bash
# Refuses each growth of memory in turn while the tests of `cases` run, and reports how they end.
#
#   tools/growths.sh [TEST..]
#
# The default tests are those of crates/cases/out/cases_tests, a program that `rt ci` builds, with `refused` in their names. Each
# test runs once with the shim tests/growths.c, which needs `cc`. At each growth the shim forks a child process in which that
# growth is refused. A child must pass, or report out of memory. The test fails at any other end of a child, and prints its
# output. Without `cc` the script reports that, and runs each test with no growth refused.
set -euo pipefail
top=$(cd "$(dirname "$0")/.." && pwd)
tests=$top/crates/cases/out/cases_tests
room=$(mktemp -d)
trap 'rm -rf "$room"' EXIT
shim=$room/shim.so
passed=0 failed=0
# a test that is out of memory aborts, and leaves no core
ulimit -c 0

if ! command -v cc >/dev/null || ! cc -std=c11 -O2 -shared -fPIC -o "$shim" "$top/tests/growths.c" -ldl; then
    echo 'skip  growths that are refused: there is no cc'
    shim=
fi
# shellcheck disable=SC2046
[ $# -gt 0 ] || set -- $("$tests" --list | sed -n '/refused/s/: test$//p')
for test in "$@"; do
    growths=0 whole=0 wanting=0 status=0
    EACH=$room/counts LD_PRELOAD=$shim "$tests" "$test" >"$room/told" 2>&1 || status=$?
    [ ! -s "$room/counts" ] || read -r growths whole wanting < <(od -An -t d8 -w24 "$room/counts")
    if [ "$status" = 0 ] && [ $((whole + wanting)) = "$growths" ]; then
        passed=$((passed + 1))
        echo "ok    $test: $growths growths, $whole passed, $wanting ended with out of memory"
    else
        failed=$((failed + 1))
        echo "FAIL  $test: $growths growths, $whole passed, $wanting ended with out of memory"
        cat "$room/told"
    fi
done
echo "$passed passed, $failed failed"
[ "$failed" = 0 ]
