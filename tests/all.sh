#!/usr/bin/env bash
# The whole gate. `rt ci` proves every listed crate from nothing, tries the must-fail edits and runs the programs; then the project's other
# tests. What each says goes to target/ci.log, and a line to the screen as each thing passes; the last line but one is how long each part took,
# the last rt's count, with each other test that failed counted as a failure.
set -u
cd "$(dirname "$0")/.."
log=target/ci.log
export PYTHONDONTWRITEBYTECODE=1 PYTHONUNBUFFERED=1

command -v rt >/dev/null || {
    echo "rt is not on the path (README.md says what is needed)"
    echo "0 passed, 1 failed"
    exit 1
}
tests/progress.py "$log" rt ci
rt_status=$?
count=$(sed -n 's/^rt \([0-9]* passed, [0-9]* failed\)$/\1/p' "$log" | tail -n 1)
passed=${count%% passed*} failed=${count##*, } failed=${failed%% failed*}
[ -n "$count" ] || passed=0 failed=1
[ "$rt_status" -eq 0 ] || [ "$failed" -gt 0 ] || failed=1
# an edit that could not be tried shows nothing, and rt counts it apart
if grep -qE '^rt: ok.*, [1-9][0-9]* bad' "$log"; then
    echo "a must-fail edit is bad: it could not be applied, compiled or read"
    failed=$((failed + 1))
fi

python3 -m tests.others "$log"
failed=$((failed + $?))
echo "$passed passed, $failed failed" | tee -a "$log"
[ "$failed" -eq 0 ]
