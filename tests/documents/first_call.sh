#!/bin/sh
# The first calls of ./clusterrun on a fresh clone, with nothing proved: they run the sources as they stand.
# Usage: first_call.sh [SECONDS]. A plain run, a check and a word that asks for no plan may take SECONDS each, 90
# without them, and a call for which the whole program is compiled twice as long. Takes some ten minutes on two cores, so
# ./check does not run it; which crate answers which words is tested by tests/documents/unproved_words.sh. The last line is
# `N passed, M failed`.
set -u

top=$(dirname "$(dirname "$(dirname "$(readlink -f "$0")")")")
plain=${1:-90}
whole=$((2 * plain))
most=$plain
room=$(mktemp -d)
trap 'rm -rf "$room"' EXIT
clone="$room/a clone"
git clone -q "$top" "$clone" || exit 1
cp "$top/clusterrun" "$clone/clusterrun"
passed=0
failed=0

# expect NAME STATUS OUT ERR WORD..: the script on these words, over $input, ends with STATUS within the time,
# writes the file OUT, and on standard error one line of its own and then the text ERR.
expect() {
    name=$1
    status=$2
    out=$3
    err=$4
    shift 4
    began=$(date +%s)
    "$clone/clusterrun" "$@" <"$input" >"$room/out" 2>"$room/err"
    got=$?
    took=$(($(date +%s) - began))
    wrong=
    [ "$got" -eq "$status" ] || wrong="$wrong status $got;"
    cmp -s "$room/out" "$out" || wrong="$wrong another output;"
    head -n 1 "$room/err" | grep -q "^clusterrun: not proved yet: " || wrong="$wrong no line that it is not proved;"
    [ "$(tail -n +2 "$room/err" | head -n 1)" = "$err" ] || wrong="$wrong standard error says '$(tail -n +2 "$room/err")';"
    [ "$took" -le "$most" ] || wrong="$wrong $took seconds;"
    if [ -z "$wrong" ]; then
        passed=$((passed + 1))
        echo "$name: $took seconds"
    else
        failed=$((failed + 1))
        echo "$name:$wrong"
    fi
}

examples=$top/examples
: >"$room/nothing"
printf '{"version":1,"agents":[]}' >"$room/faulty.json"
input=/dev/null
cd "$room" || exit 1
expect "the first example" 0 "$examples/first.report" "" run "$examples/first.json"
input=$examples/gone.json
expect "standard input" 0 "$examples/gone.report" "" run --turns
input=/dev/null
expect "a faulty plan" 1 "$room/nothing" "refused S4" check faulty.json
expect "a missing file" 4 "$room/nothing" "cannot read" run missing.json
before=$(ls -A "$clone/crates/first_run")
expect "a word that is none" 2 "$room/nothing" "error: unrecognized subcommand 'walk'" walk
[ "$before" = "$(ls -A "$clone/crates/first_run")" ] || failed=$((failed + 1))
most=$whole
expect "two agents, watched" 0 "$examples/worker.report" "audits 3" run "$examples/worker.json" --watch 3
expect "a missing file, explained" 4 "$room/nothing" "cannot read" explain missing.json
echo "$passed passed, $failed failed"
[ "$failed" -eq 0 ]
