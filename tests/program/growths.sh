#!/bin/sh
# Each growth refused in turn: the run ends with 'out of memory' and nothing written, or as if nothing
# had been refused: with the report, or with the fault of its plan. Last, a few plans whose agents run in threads: there
# the run ends with 'out of memory' wherever a growth is refused that `check` does not make and go on without. How many
# growths and how many threads a run makes tells too that its agents are threads, and that a watcher makes its audits. A
# library of our own stands before the C library's malloc, realloc and pthread_create.
# Usage: growths.sh PROGRAM. Prints each test that fails, and 'N passed, M failed' last.
set -u

program=$(readlink -f "$1")
top=$(dirname "$(dirname "$(dirname "$(readlink -f "$0")")")")
room=$(mktemp -d)
trap 'rm -rf "$room"' EXIT
passed=0
failed=0

if ! "${CC:-cc}" -shared -fPIC -O1 -o "$room/refuse.so" "$top/tests/program/refuse.c"; then
    echo "FAILED: there is no C compiler that makes refuse.so"
    echo "0 passed, 1 failed"
    exit 1
fi
echo 'out of memory' >"$room/complaint"

# Runs the program on these words with the growth of this number refused; 0 refuses none. One that is killed tells no
# growths.
run() {
    number=$1
    shift
    echo 0 >"$room/growths"
    REFUSE=$number GROWTHS="$room/growths" LD_PRELOAD="$room/refuse.so" "$program" "$@" \
        >"$room/out" 2>"$room/err"
    got=$?
}

# How many growths the run made that has just ended, and how many of them were threads.
growths_made() { sed -n 1p "$room/growths"; }
threads_made() { sed -n 2p "$room/growths"; }

# Tries each growth of a run on these words, which ends with this status where none is refused.
each_growth() {
    status=$1
    shift
    run 0 "$@"
    cp "$room/out" "$room/wanted"
    cp "$room/err" "$room/told"
    growths=$(growths_made)
    if [ "$got" -ne "$status" ] || [ "$growths" -lt 10 ]; then
        failed=$((failed + 1))
        echo "FAILED: $*: status $got and $growths growths with none refused"
    fi
    number=0
    while [ "$number" -lt "$growths" ]; do
        number=$((number + 1))
        run "$number" "$@"
        if [ "$got" -eq 3 ] && [ ! -s "$room/out" ] && cmp -s "$room/err" "$room/complaint"; then
            passed=$((passed + 1))
        elif [ "$got" -eq "$status" ] && cmp -s "$room/out" "$room/wanted" && cmp -s "$room/err" "$room/told"; then
            passed=$((passed + 1))
        else
            failed=$((failed + 1))
            echo "FAILED: $*: growth $number refused: status $got"
        fi
    done
}

# What the run did that has just ended: whether it made a growth of this number, ran out of memory, gave the report.
met() { [ "$(growths_made)" -ge "$number" ]; }
ran_out() { [ "$got" -eq 3 ] && [ ! -s "$room/out" ] && cmp -s "$room/err" "$room/complaint"; }
reported() { [ "$got" -eq 0 ] && cmp -s "$room/out" "$room/wanted" && cmp -s "$room/err" "$room/told"; }

# Tries the growths of a plan's run in threads, beside so many audits. They are not the same from run to run, nor as many:
# the numbers go on until twenty in a row refuse nothing. Where a list is made of an iterator, room for all of it is asked
# for at first, and then piece by piece; so a few growths can be done without.
each_growth_in_threads() {
    run 0 run "$1" --turns
    cp "$room/out" "$room/wanted"
    : >"$room/told"
    [ "$2" -eq 0 ] || echo "audits $2" >"$room/told"
    number=0
    refused=0
    without=0
    in_a_row=0
    while [ "$in_a_row" -lt 20 ]; do
        number=$((number + 1))
        echo 0 >"$room/growths"
        timeout 60 env REFUSE="$number" GROWTHS="$room/growths" LD_PRELOAD="$room/refuse.so" "$program" \
            run "$1" --watch "$2" >"$room/out" 2>"$room/err"
        got=$?
        in_a_row=$((in_a_row + 1))
        if met && ran_out; then
            in_a_row=0
            refused=$((refused + 1))
            passed=$((passed + 1))
        elif reported; then
            if met; then without=$((without + 1)); fi
            passed=$((passed + 1))
        else
            failed=$((failed + 1))
            echo "FAILED: $1 in threads: growth $number refused: status $got"
        fi
        [ "$number" -lt 5000 ] || break
    done
    if [ "$refused" -lt 100 ] || [ "$without" -gt $((refused / 8)) ]; then
        failed=$((failed + 1))
        echo "FAILED: $1 in threads: $refused growths refused, and $without more that it did without"
    fi
}

examples=$top/examples
each_growth 0 run "$examples/properties.json" --turns
each_growth 0 run "$examples/kept.json" --turns --helpers 2
each_growth 0 run "$examples/reaches.json" --turns
each_growth 0 run "$examples/cycle.json" --turns
each_growth 0 run "$examples/ephemerons.json" --turns
each_growth 0 run "$examples/entries.json" --turns
each_growth 0 run "$examples/members.json" --turns
each_growth 0 run "$examples/unregister.json" --turns
each_growth 0 run "$examples/queue.json" --turns
each_growth 0 run "$examples/anew.json" --turns
each_growth 0 run "$examples/agents.json" --turns
each_growth 0 run "$examples/worker.json" --turns
each_growth 0 run "$examples/skipped.json" --turns
each_growth 0 run "$examples/two_buffers.json" --turns
each_growth 0 run "$examples/nobody_takes.json" --turns
each_growth 0 run "$examples/later.json" --turns
each_growth 0 check "$examples/refusals.json"
each_growth 0 check --races "$examples/races.json"
each_growth 0 check --races "$examples/ordered.json"
each_growth 0 explain "$examples/refusals.json"
each_growth 0 trace "$examples/queue.json"
each_growth 0 trace "$examples/later.json"
each_growth 0 trace "$examples/nobody_takes.json"
each_growth 0 trace --all "$examples/queue.json"
each_growth 0 trace --json --all "$examples/later.json"
each_growth 0 trace --dot "$examples/queue.json"

# a chain of entries, a key of several WeakMaps that is a member of several WeakSets, and each of the nine
# commands on them; a collection while only the chain's first key leads to the rest, and one after
link='["weakmap","m"],["wmset","m","k","m"],["wmset","m","m","k"],["weakset","s"],["wsadd","s","k"],["wsadd","s","m"]'
link=$link',["new","v"],["set","v","m","m"],["set","v","s","s"],["wmset","n","l","v"],["copy","l","v"]'
forget='["let","l",null],["let","v",null],["let","m",null],["let","s",null]'
{
    printf '{"version":1,"agents":[{"name":"a","callbacks":{},"jobs":[{"run":['
    printf '["new","k"],["new","l"],["copy","f","l"],["weakmap","n"],'
    yes "$link" | head -n 9 | paste -s -d ,
    printf ',%s,["collect"],["wmget","v","n","f"],["get","m","v","m"],["get","s","v","s"],' "$forget"
    printf '["wmhas","x","m","k"],["say","x"],["wmdelete","x","m","k"],["say","x"],'
    printf '["wshas","x","s","k"],["say","x"],["wsdelete","x","s","k"],["say","x"],'
    printf '%s,["let","f",null],["let","k",null],["collect"]]}]}]}\n' "$forget"
} >"$room/tables.json"
each_growth 0 run "$room/tables.json" --turns

# registrations with a token each, with one that all share, and with none, in a FinalizationRegistry of each link, so that
# several are queued at once; callbacks that are refused, register anew and unregister what awaits them
link='["registry","q","cb"],["new","x"],["new","t"],["register","q","x","n","t"],["register","q","x","n","s"]'
link=$link',["register","r","x","q"],["register","r","x","n","s"],["register","r","x","n","t"],["unregister","b","r","t"]'
{
    printf '{"version":1,"agents":[{"name":"a","callbacks":{"cb":[["say","held"],["new","y"],["register","r","y","held","y"],'
    printf '["let","y",null],["unregister","b","r","s"],["say","b"],["keys","held"]]},"jobs":[{"run":['
    printf '["let","n",1],["new","s"],["registry","r","cb"],'
    yes "$link" | head -n 9 | paste -s -d ,
    printf ',["let","x",null],["collect"]]},{"run":[["collect"],["let","held",null],["let","t",null],["collect"]]}]}]}\n'
} >"$room/cells.json"
each_growth 0 run "$room/cells.json" --turns

# blocks of two agents that post them on and drop them, in callbacks too, and collect; more messages than are taken
link='["buffer","b",3],["add","x","b",2,-1],["post","AGENT","b"],["post","AGENT","b"],["post","AGENT","x"],["new","y"]'
link=$link',["register","r","y","b"],["let","y",null]'
answer='{"on":["AGENT","m"],"run":[["store","m",0,7],["load","x","m",2],["post","AGENT","m"],["let","m",null],["collect"]]}'
of_agent() {
    printf '{"name":"%s","callbacks":{"cb":[["post","AGENT","held"],["length","n","held"],["add","x","held",0,1]]},"jobs":[' "$1"
    printf '{"run":[["registry","r","cb"],%s,["let","b",null],["collect"]]},' "$(yes "$link" | head -n 3 | paste -s -d ,)"
    printf '%s,%s,%s,{"on":["AGENT","m"],"run":[["say","m"],["keys","x"]]}]}' "$answer" "$answer" "$answer"
}
{
    printf '{"version":1,"agents":['
    of_agent a | sed 's/AGENT/b/g'
    printf ','
    of_agent b | sed 's/AGENT/a/g'
    echo ']}'
} >"$room/blocks.json"
each_growth 0 run "$room/blocks.json" --turns

# later collections while a WeakMap, a WeakSet, registrations and a buffer are there: one that derefs give parts back
# from, one in a job that is refused, one after it, and one with nothing left to empty
made='["new","k"],["new","v"],["wmset","m","k","v"],["wsadd","s","k"],["weakref","w","k"],["weakref","u","v"]'
made=$made',["register","r","v","n","k"],["buffer","b",2],["set","v","b","b"],["set","k","w","w"]'
gone='["let","k",null],["let","v",null],["let","b",null],["let","w",null],["let","u",null]'
{
    printf '{"version":2,"agents":[{"name":"a","callbacks":{"cb":[["new","y"],["register","r","y","held"]]},"jobs":[{"run":['
    printf '["let","n",1],["registry","r","cb"],["weakmap","m"],["weakset","s"],'
    yes "$made" | head -n 5 | paste -s -d ,
    printf ',["copy","f","w"],["copy","g","u"],%s]},{"run":[["collectlater"],["deref","k","f"],["new","x"],' "$gone"
    printf '["wmget","v","m","k"],["say","v"],["set","x","k","k"]]},{"run":[%s,["collectlater"],["keys","n"]]},' "$gone"
    printf '{"run":[["let","x",null],["collectlater"],["deref","v","g"]]},{"run":[["let","v",null],["collectlater"]]},'
    printf '{"run":[["collectlater"]]}]}]}\n'
} >"$room/later.json"
each_growth 0 run "$room/later.json" --turns

# a fault in the last command of the last agent, so that all before it is read
sed 's/\["keys", "x"\]/["keys", "1x"]/' "$examples/agents.json" >"$room/faulty.json"
each_growth 1 run "$room/faulty.json" --turns
each_growth 1 check --races "$room/faulty.json"
each_growth 1 explain "$room/faulty.json"
each_growth 1 trace "$room/faulty.json"

# `check` takes no step of the plan: it makes as many growths for a plan that ends its job at once, by a
# command that is refused, as for one that goes on with 50 objects. A run makes fewer for the former.
commands=$(yes '["new","o"]' | head -n 50 | paste -s -d ,)
for first in get same; do
    printf '{"version":1,"agents":[{"name":"a","callbacks":{},"jobs":[{"run":[["%s","x","x","x"],%s]}]}]}\n' \
        "$first" "$commands" >"$room/$first.json"
    for word in check "run --turns"; do
        # shellcheck disable=SC2086
        run 0 $word "$room/$first.json"
        growths_made >"$room/growths_${word% *}_$first"
        if [ "$got" -eq 0 ]; then
            passed=$((passed + 1))
        else
            failed=$((failed + 1))
            echo "FAILED: $word of a plan that begins with $first: status $got"
        fi
    done
done
if cmp -s "$room/growths_check_get" "$room/growths_check_same" &&
    [ "$(cat "$room/growths_run_get")" -lt "$(cat "$room/growths_run_same")" ]; then
    passed=$((passed + 1))
else
    failed=$((failed + 1))
    echo "FAILED: check makes growths that depend on the run: $(cat "$room"/growths_*_* | paste -s -d ' ')"
fi

# Each agent but the first has a thread of its own, which is made for it, and the watcher one more; by turns there are
# none.
makes_threads() {
    wanted=$1
    shift
    run 0 run "$@"
    if [ "$got" -eq 0 ] && [ "$(threads_made)" -eq "$wanted" ]; then
        passed=$((passed + 1))
    else
        failed=$((failed + 1))
        echo "FAILED: $*: status $got and $(threads_made) threads made, not $wanted"
    fi
}
for name in a b c d e f g h; do
    printf '{"name":"%s","callbacks":{},"jobs":[]}\n' "$name"
done | paste -s -d , | sed 's/.*/{"version":1,"agents":[&]}/' >"$room/eight.json"
makes_threads 1 "$examples/worker.json"
makes_threads 2 "$examples/worker.json" --watch 1
makes_threads 0 "$examples/worker.json" --turns --watch 1
makes_threads 7 "$room/eight.json"
makes_threads 8 "$room/eight.json" --watch 3
makes_threads 0 "$room/eight.json" --turns
makes_threads 0 "$examples/kept.json"
makes_threads 1 "$examples/kept.json" --watch 2
# A later collection is marked in a thread of its own.
makes_threads 1 "$examples/later.json"
makes_threads 0 "$examples/later.json" --turns

# A watcher makes its audits: each makes three growths, a list of locks, one of agents and one of counts. What else a
# run grows is not the same from run to run, so the most of five runs with many audits stands beside the least of five with
# few.
most=0
least=1000000000
for _ in 1 2 3 4 5; do
    run 0 run "$examples/worker.json" --watch 1000
    [ "$got" -eq 0 ] || most=-1000000000
    [ "$(growths_made)" -le "$most" ] || most=$(growths_made)
    run 0 run "$examples/worker.json" --watch 4
    [ "$got" -eq 0 ] || least=1000000000
    [ "$(growths_made)" -ge "$least" ] || least=$(growths_made)
done
if [ $((most - least)) -ge $((996 * 3)) ]; then
    passed=$((passed + 1))
else
    failed=$((failed + 1))
    echo "FAILED: 996 more audits make $((most - least)) growths more, not 2988"
fi

# Thousands of objects that one holds, and at last a collection: with helpers it makes threads, and its growths are the
# run's last ones.
{
    printf '{"version":1,"agents":[{"name":"a","callbacks":{},"jobs":[{"run":[["new","p"]]}'
    for half in 1 2; do
        printf ',{"run":[%s]}' "$(seq 1 4500 | sed "s/.*/[\"new\",\"o\"],[\"set\",\"p\",\"k${half}_&\",\"o\"]/" | paste -s -d ,)"
    done
    printf ',{"run":[["let","o",null],["collect"]]}]}]}\n'
} >"$room/wide.json"
makes_threads 0 "$room/wide.json" --helpers 1
run 0 run "$room/wide.json" --helpers 4
if [ "$got" -eq 0 ] && [ "$(threads_made)" -gt 0 ]; then
    passed=$((passed + 1))
else
    failed=$((failed + 1))
    echo "FAILED: four helpers: status $got and $(threads_made) threads made"
fi
# A later collection of it has a thread of its own, in which as many helpers mark the copy, and the agent marks it no more.
helpers=$(threads_made)
sed 's/"version":1/"version":2/; s/\["collect"\]/["collectlater"]/' "$room/wide.json" >"$room/wide_later.json"
makes_threads 1 "$room/wide_later.json" --helpers 1
makes_threads $((1 + helpers)) "$room/wide_later.json" --helpers 4

# Refuses the last growths of a plan's run with so many helpers, in turn. How many there are is not quite the same from
# run to run.
last_growths() {
    run 0 run "$1" --turns
    cp "$room/out" "$room/wanted"
    : >"$room/told"
    run 0 run "$1" --helpers "$2"
    last=$(growths_made)
    number=$((last - $3))
    refused=0
    while [ "$number" -lt $((last + 3)) ]; do
        number=$((number + 1))
        run "$number" run "$1" --helpers "$2"
        if met && ran_out; then
            refused=$((refused + 1))
            passed=$((passed + 1))
        elif reported; then
            passed=$((passed + 1))
        else
            failed=$((failed + 1))
            echo "FAILED: $1 with $2 helpers: growth $number of $last refused: status $got"
        fi
    done
    if [ "$refused" -lt $(($3 / 2)) ]; then
        failed=$((failed + 1))
        echo "FAILED: $1 with $2 helpers: $refused growths of the last $3 refused"
    fi
}
last_growths "$room/wide.json" 2 80
last_growths "$room/wide.json" 8 120

# Eight long histories: seven threads run agents, seven compare histories, and seven make lines. A growth that is refused
# while histories are compared ends the run; one that is refused after that changes nothing. Where no agent has a buffer, nothing
# is compared but their ends.
commands=$(yes '["let","x",1]' | head -n 5000 | paste -s -d ,)
eight_long() {
    for name in a b c d e f g h; do
        printf '{"name":"%s","callbacks":{},"jobs":[{"run":[%s%s]},{"run":[%s]}]}\n' "$name" "$1" "$commands" "$commands"
    done | paste -s -d , | sed 's/.*/{"version":1,"agents":[&]}/'
}
eight_long '["buffer","b",1],' >"$room/long.json"
makes_threads 21 "$room/long.json"
eight_long "" >"$room/calm.json"
makes_threads 14 "$room/calm.json"
makes_threads 0 "$room/long.json" --turns
run 0 run "$room/long.json" --turns
cp "$room/out" "$room/wanted"
: >"$room/told"
run 0 run "$room/long.json"
last=$(growths_made)
number=$((last - 100))
without=0
while [ "$number" -lt "$last" ]; do
    number=$((number + 1))
    run "$number" run "$room/long.json"
    if reported; then
        if met; then without=$((without + 1)); fi
        passed=$((passed + 1))
    elif met && ran_out; then
        passed=$((passed + 1))
    else
        failed=$((failed + 1))
        echo "FAILED: eight long histories: growth $number of $last refused: status $got"
    fi
done
# in each of three tries the last 39 were done without, and two among the others
if [ "$without" -lt 35 ]; then
    failed=$((failed + 1))
    echo "FAILED: eight long histories: $without of the last growths were done without"
fi

# a block that two agents use in turn; one whose last message nobody takes; and one that comes as two objects
each_growth_in_threads "$examples/worker.json" 0
each_growth_in_threads "$examples/nobody_takes.json" 0
each_growth_in_threads "$examples/two_buffers.json" 0
each_growth_in_threads "$examples/worker.json" 4
# later collections, each marked by a helper
each_growth_in_threads "$room/later.json" 0

echo "$passed passed, $failed failed"
[ "$failed" -eq 0 ]
