#!/bin/sh
# The tests that take too long for ./check, on the programs that it built: each growth refused in more ways, plans at their
# whole limits, little memory in small steps, and a fuzzer. It takes MINUTES (20) and, reckoned, half an hour more, and
# 4 GB of memory.
# Usage: release.sh [MINUTES]. The last line is 'N passed, M failed', all counted together.
set -u

top=$(dirname "$(dirname "$(dirname "$(readlink -f "$0")")")")
cd "$top" || exit 1
minutes=${1:-20}
program=$top/crates/clusterrun/out/clusterrun
calls=$top/crates/calls/out/calls
export PYTHONDONTWRITEBYTECODE=1
room=$(mktemp -d)
trap 'rm -rf "$room"' EXIT
passed=0
failed=0

# try WORD..: runs a test, shows what it says, and adds its numbers. One that says none has failed.
try() {
    echo "== $*"
    "$@" 2>&1 | tee "$room/said"
    numbers=$(tail -n 1 "$room/said" | sed -n 's/^\([0-9][0-9]*\) passed, \([0-9][0-9]*\) failed$/\1 \2/p')
    [ -n "$numbers" ] || numbers="0 1"
    passed=$((passed + ${numbers% *}))
    failed=$((failed + ${numbers#* }))
}

seed=$(date +%s)
try tests/program/refused_growths.py "$program" "$calls" --long --jobs 2
try tests/program/refused_marking.py "$program" --long --jobs 2
try tests/program/limits.py "$program" --whole --show
try tests/program/memory.py "$program" --long
try tests/program/threads.py "$program" --waking 100
try tests/program/threads.py "$program" 2000 "$seed" --helpers 2,3,8 --jobs 2
try tests/program/marking_helpers.py "$program" 60 "$seed" --jobs 2
try tests/program/turns.py "$calls" 5000 "$seed"
try tests/program/fuzz.py "$program" --minutes "$minutes" --seed "$seed" --jobs 2
echo "$passed passed, $failed failed"
[ "$failed" -eq 0 ]
