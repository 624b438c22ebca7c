#!/bin/sh
# What the program does with words, files and pipes: its status, standard output and standard error.
# Usage: program.sh PROGRAM. Prints each test that fails, and 'N passed, M failed' last.
set -u

program=$(readlink -f "$1")
top=$(dirname "$(dirname "$(dirname "$(readlink -f "$0")")")")
room=$(mktemp -d)
trap 'rm -rf "$room"' EXIT
passed=0
failed=0

# expect NAME STATUS OUTPUT ERRORS: what the program that just ran should have done; $got is its
# status, and what it wrote stands in the files out and err. OUTPUT is a file, or - for any. ERRORS is
# the one line on standard error, empty for none and - for any text that is not empty.
expect() {
    why=
    [ "$got" -eq "$2" ] || why="status $got, not $2"
    [ "$3" = - ] || cmp -s "$room/out" "$3" || why="$why; another output"
    case $4 in
    "") [ ! -s "$room/err" ] || why="$why; something on standard error" ;;
    -) [ -s "$room/err" ] || why="$why; nothing on standard error" ;;
    *) printf '%s\n' "$4" | cmp -s - "$room/err" || why="$why; another text on standard error" ;;
    esac
    if [ -z "$why" ]; then
        passed=$((passed + 1))
    else
        failed=$((failed + 1))
        echo "FAILED: $1: $why"
    fi
}

# Runs the program on these words, with the small plan on standard input.
run() {
    "$program" "$@" <"$room/plan.json" >"$room/out" 2>"$room/err"
    got=$?
}

# usage NAME WORDS..: the words are none of the program's
usage() {
    name=$1
    shift
    run "$@"
    expect "$name" 2 "$room/nothing" -
}

# help TEXT WORDS..: the words ask for help, in which this text stands
help() {
    text=$1
    shift
    run "$@"
    grep -q -e "$text" "$room/out" || got="$got without '$text'"
    expect "help by $*" 0 - ""
}

# faulty NAME ERRORS: the plan in the file script has this fault, by each command
faulty() {
    run run "$room/script"
    expect "$1" 1 "$room/nothing" "$2"
    run check "$room/script"
    expect "$1, checked" 1 "$room/nothing" "$2"
    run trace "$room/script"
    expect "$1, traced" 1 "$room/nothing" "$2"
    run check --races "$room/script"
    expect "$1, its races" 1 "$room/nothing" "$2"
}

# commands COMMAND..: each is given in words, in which null and whole numbers are the only literals
commands() {
    [ $# -gt 0 ] || { echo && return; }
    printf '%s\n' "$@" | sed 's/ /","/g; s/.*/["&"]/; s/"\(null\|-\{0,1\}[0-9]\{1,\}\)"/\1/g' | paste -s -d ,
}

# job COMMAND..: these commands as one job of a plan
job() {
    commands "$@" | sed 's/.*/{"run":[&]}/'
}

# waiting AGENT VARIABLE COMMAND..: these commands as one job that waits for a message of that agent
waiting() {
    on="\"on\":[\"$1\",\"$2\"]"
    shift 2
    job "$@" | sed "s/^{/{$on,/"
}

# callback NAME COMMAND..: these commands as one callback of a plan
callback() {
    name=$1
    shift
    commands "$@" | sed "s/.*/\"$name\":[&]/"
}

# plan_with CALLBACKS JOB..: the file script becomes a plan of one agent with these callbacks and jobs
plan_with() {
    calls=$1
    shift
    printf '%s\n' "$@" | paste -s -d , |
        sed "s/.*/{\"version\":1,\"agents\":[{\"name\":\"a\",\"callbacks\":{$calls},\"jobs\":[&]}]}/" >"$room/script"
}

# plan JOB..: the same without callbacks
plan() {
    plan_with "" "$@"
}

# agent NAME JOB..: one agent of a plan, with these jobs
agent() {
    name=$1
    shift
    printf '%s\n' "$@" | paste -s -d , | sed "s/.*/{\"name\":\"$name\",\"callbacks\":{},\"jobs\":[&]}/"
}

# cluster AGENT..: the file script becomes a plan of these agents
cluster() {
    printf '%s\n' "$@" | paste -s -d , | sed 's/.*/{"version":1,"agents":[&]}/' >"$room/script"
}

# told NAME COUNTS LINE..: the agents of the file script say these lines, with $end for the last one of each; so many blocks
# were opened and released, and so many messages posted, taken and drained
told() {
    name=$1
    counts=$2
    shift 2
    {
        printf '%s\n' "$@"
        # shellcheck disable=SC2086
        printf 'cluster\nblocks %s released %s\nmessages posted %s taken %s drained %s\n' $counts
    } >"$room/wanted"
    run run "$room/script"
    expect "$name, in threads" 0 "$room/wanted" ""
    run run --turns "$room/script"
    expect "$name, by turns" 0 "$room/wanted" ""
    run run --watch 9 "$room/script"
    expect "$name, watched" 0 "$room/wanted" "audits 9"
}

# cleaned NAME FATES LINE..: the agent of the file script says these lines; at its end so many of its registrations are
# live, await their cleanup, were unregistered and were taken
cleaned() {
    name=$1
    fates=$2
    shift 2
    {
        echo 'agent a'
        printf '%s\n' "$@"
        # shellcheck disable=SC2086
        printf 'end live %s awaiting %s unregistered %s taken %s\n' $fates
        tail -n 3 "$room/report"
    } >"$room/wanted"
    run run "$room/script"
    expect "$name, in a thread" 0 "$room/wanted" ""
    run run --turns "$room/script"
    expect "$name, by turns" 0 "$room/wanted" ""
}

# reported NAME LINE..: the same of an agent without registrations
reported() {
    name=$1
    shift
    cleaned "$name" "0 0 0 0" "$@"
}

end='end live 0 awaiting 0 unregistered 0 taken 0'
printf '{"version":1,"agents":[{"name":"a","callbacks":{},"jobs":[]}]}\n' >"$room/plan.json"
{
    echo 'agent a'
    echo "$end"
    echo 'cluster'
    echo 'blocks 0 released 0'
    echo 'messages posted 0 taken 0 drained 0'
} >"$room/report"
echo ok >"$room/ok"
: >"$room/nothing"

# Words

run
expect "no words" 0 "$room/report" ""
run run
expect "run" 0 "$room/report" ""
run run "$room/plan.json"
expect "run of a file" 0 "$room/report" ""
run run --turns --helpers 8 --watch 1000 "$room/plan.json"
expect "run with every option" 0 "$room/report" ""
run run --watch 1000 --helpers 8
expect "a watched run" 0 "$room/report" "audits 1000"
run run --watch 0
expect "a run with no audits" 0 "$room/report" ""
run run --turns --watch 3
expect "no audits by turns" 0 "$room/report" ""
run run --watch=3
expect "a number behind an equals sign" 0 "$room/report" "audits 3"
run run "$room/plan.json" --turns --helpers 2 --watch 3
expect "options behind the file" 0 "$room/report" ""
run run --watch=3 --helpers=2 "$room/plan.json"
expect "options before the file" 0 "$room/report" "audits 3"
run run --helpers 1
expect "one helper" 0 "$room/report" ""
run run --helpers=8
expect "eight helpers" 0 "$room/report" ""
run run -- --turns
expect "a file that is spelled as an option" 4 "$room/nothing" "cannot read"
run run run
expect "a file that is spelled as a command" 4 "$room/nothing" "cannot read"
run check -- -p
expect "a file that begins with a dash, checked" 4 "$room/nothing" "cannot read"
run check
expect "check" 0 "$room/ok" ""
run check "$room/plan.json"
expect "check of a file" 0 "$room/ok" ""
printf 'no race\n' >"$room/no_race"
run check --races
expect "races" 0 "$room/no_race" ""
run check --races "$room/plan.json"
expect "races of a file" 0 "$room/no_race" ""
run check "$room/plan.json" --races
expect "the option behind the file" 0 "$room/no_race" ""
run check --races "$room/missing.json"
expect "races of no file" 4 "$room/nothing" "cannot read"
run explain
expect "explain" 0 "$room/ok" ""
run explain "$room/plan.json"
expect "explain of a file" 0 "$room/ok" ""
run explain "$room/missing.json"
expect "explain of no file" 4 "$room/nothing" "cannot read"
usage "two files, explained" explain a b
usage "an option of run beside explain" explain --turns
help explain explain --help
printf 'a  agent ends\n-  a ended\n' >"$room/traced"
run trace
expect "trace" 0 "$room/traced" ""
run trace "$room/plan.json"
expect "trace of a file" 0 "$room/traced" ""
run trace "$room/missing.json"
expect "trace of no file" 4 "$room/nothing" "cannot read"
run trace --all
expect "trace of all that stays" 0 "$room/traced" ""
run trace "$room/plan.json" --all
expect "an option behind the traced file" 0 "$room/traced" ""
cat >"$room/wanted" <<'END'
{"agent":"a","event":"agent ends"}
{"ledger":"ended","agent":"a"}
END
run trace --json
expect "trace in JSON" 0 "$room/wanted" ""
run trace --json --all "$room/plan.json"
expect "trace in JSON of all that stays" 0 "$room/wanted" ""
run trace --dot
expect "pictures of no collection" 0 "$room/nothing" ""
run trace --dot --all "$room/plan.json"
expect "pictures of no collection in a file" 0 "$room/nothing" ""
run trace -- --dot
expect "a file that is spelled as an option, traced" 4 "$room/nothing" "cannot read"
usage "two files, traced" trace a b
usage "an option of run beside trace" trace --turns
usage "two forms of a trace" trace --json --dot
usage "the same two forms" trace --dot --json "$room/plan.json"
usage "a form twice" trace --json --json
usage "a value of a form" trace --json=1
usage "an option of trace beside run" run --all
usage "a form beside check" check --json
help trace trace --help
help --all trace --help
help --json trace --help
help --dot trace --help
help "trace \[FILE\] \[--all\] \[--json | --dot\]" --help
# explained TEXT LINE..: what explain says of this text
explained() {
    printf %s "$1" >"$room/script"
    text=$1
    shift
    printf '%s\n' "$@" >"$room/wanted"
    run explain "$room/script"
    expect "explain $text" 1 "$room/wanted" ""
}
# explained_agent PARTS LINE..: the same of a plan of one agent with these callbacks and jobs
explained_agent() {
    parts=$1
    shift
    explained "{\"version\":1,\"agents\":[{\"name\":\"a\",$parts}]}" "$@"
}
explained '{"version":1' 'S1 line 1 column 1' "This { is never closed."
explained '{"version":1}' 'S2 ""' "A plan has version and agents: agents is missing." 'found {"version":1}'
explained '{"version":4,"agents":[]}' 'S3 "/version"' "The version is 1, 2 or 3." "found 4"
explained '{"version":1,"agents":[]}' 'S4 "/agents"' "A plan has 1 to 8 agents, and here are none." "found []"
explained '{"version":1,"agents":[{"name":"1","callbacks":{},"jobs":[]}]}' 'S5 "/agents/0/name"' '"1" is no name: it begins with a digit.' 'found "1"'
explained_agent '"callbacks":{"b/c":[]},"jobs":[]' 'S5 "/agents/0/callbacks/b~1c"' '"b/c" is no name: it has "/".' 'found "b/c"'
explained_agent '"callbacks":{"a":[],"~~1\n\"é":[]},"jobs":[]' 'S5 "/agents/0/callbacks/~0~01\n\"é"' '"~~1\n\"é" is no name: it has "~".' \
    'found "~~1\n\"é"'
# a key of 300 bytes stands whole in the place
key=$(printf '%0300d' 0 | tr 0 k)
explained_agent "\"callbacks\":{\"$key\":[]},\"jobs\":[]" "S5 \"/agents/0/callbacks/$key\"" \
    "\"$(printf %.32s "$key")..\" is no name: it has 300 letters, and a name has at most 32." \
    "found \"$(printf %.59s "$key").."
explained_agent '"callbacks":{},"jobs":[{"run":[]},{"on":["b","1"],"run":[]}]},{"name":"b","callbacks":{},"jobs":[]' \
    'S5 "/agents/0/jobs/1/on"' '"1" is no name: it begins with a digit.' 'found ["b","1"]'
explained_agent '"callbacks":{},"jobs":[{"on":["b","x"],"run":[]}]' 'S6 "/agents/0/jobs/0/on"' \
    'There is no agent "b" to wait for. Other agents: none.' 'found ["b","x"]'
explained_agent '"callbacks":{},"jobs":[{"run":[]},{"run":[["new","a"],["nwe","b"]]}]' 'S7 "/agents/0/jobs/1/run/1"' \
    'There is no command "nwe". Did you mean new?' 'found ["nwe","b"]'
explained_agent '"callbacks":{},"jobs":[{"run":[["let","a",9007199254740992]]}]' 'S8 "/agents/0/jobs/0/run/0"' \
    "Operand 2 of let is not from -9007199254740991 to 9007199254740991." 'found ["let","a",9007199254740992]'
explained_agent '"callbacks":{"b":[],"c":[["new","x"],["collect"]]},"jobs":[]' 'S9 "/agents/0/callbacks/c/1"' \
    "collect can't stand in a callback: collect in a job." 'found ["collect"]'
explained_agent '"callbacks":{},"jobs":[{"run":[["buffer","b",16385]]}]' 'S10 "/agents/0/jobs/0/run/0"' \
    "A buffer has at most 16384 words." 'found ["buffer","b",16385]'
explained_agent '"callbacks":{},"jobs":[{"run":[["abcdefghijklmnopqrstuvwxyzabcdefghijklmnopqrstuvwxyzabcd"]]}]' \
    'S7 "/agents/0/jobs/0/run/0"' 'There is no command "abcdefghijklmnopqrstuvwxyzabcdef..".' 'found ["abcdefghijklmnopqrstuvwxyzabcdefghijklmnopqrstuvwxyzabcd"]'
explained_agent '"callbacks":{},"jobs":[{"run":[["abcdefghijklmnopqrstuvwxyzabcdefghijklmnopqrstuvwxyzabcde"]]}]' \
    'S7 "/agents/0/jobs/0/run/0"' 'There is no command "abcdefghijklmnopqrstuvwxyzabcdef..".' 'found ["abcdefghijklmnopqrstuvwxyzabcdefghijklmnopqrstuvwxyzabcde"..'
# a letter of two bytes of which the second is byte 60, 61 and 62
explained_agent '"callbacks":{},"jobs":[{"run":[["abcdefghijklmnopqrstuvwxyzabcdefghijklmnopqrstuvwxyzabcdé.."]]}]' \
    'S7 "/agents/0/jobs/0/run/0"' 'There is no command "abcdefghijklmnopqrstuvwxyzabcdef..".' 'found ["abcdefghijklmnopqrstuvwxyzabcdefghijklmnopqrstuvwxyzabcdé..'
explained_agent '"callbacks":{},"jobs":[{"run":[["abcdefghijklmnopqrstuvwxyzabcdefghijklmnopqrstuvwxyzabcdeé."]]}]' \
    'S7 "/agents/0/jobs/0/run/0"' 'There is no command "abcdefghijklmnopqrstuvwxyzabcdef..".' 'found ["abcdefghijklmnopqrstuvwxyzabcdefghijklmnopqrstuvwxyzabcde..'
explained_agent '"callbacks":{},"jobs":[{"run":[["abcdefghijklmnopqrstuvwxyzabcdefghijklmnopqrstuvwxyzabcdefé"]]}]' \
    'S7 "/agents/0/jobs/0/run/0"' 'There is no command "abcdefghijklmnopqrstuvwxyzabcdef..".' 'found ["abcdefghijklmnopqrstuvwxyzabcdefghijklmnopqrstuvwxyzabcdef..'
usage "another word" fly
usage "help as a word" help
usage "two dashes alone" --
usage "one dash and a letter" -x
usage "a file without run" p.json
usage "an option without run" --turns
usage "a number without run" --helpers 1
usage "a command in capitals" RUN
usage "another option" run --fly
usage "two files" run a b
usage "an option twice" run --turns --turns
usage "a value of an option that has none" run --turns=1
usage "no number of helpers" run --helpers
usage "no helpers" run --helpers 0
usage "nine helpers" run --helpers 9
usage "helpers below 0" run --helpers -1
usage "helpers in letters" run --helpers two
usage "helpers twice" run --helpers 1 --helpers 1
usage "no number of audits" run --watch
usage "a watch of 1001" run --watch 1001
usage "a watch below 0" run --watch -1
usage "a watch that is no number" run --watch often
usage "a watch that is not whole" run --watch 1.5
usage "a watch of 65536" run --watch 65536
usage "an empty watch" run --watch=
usage "two files, checked" check a b
usage "an option of run beside check" check --turns
usage "helpers beside check" check --helpers 1
usage "a watch beside check" check --watch 1
usage "both commands" check run p
usage "races twice" check --races --races
usage "a value of races" check --races=1
usage "races beside run" run --races
usage "races beside trace" trace --races
usage "two files, and their races" check --races a b
usage "a word that is no text" run "$(printf '\377')"
help check --help
help --races check --help
help "check \[FILE\] \[--races\]" --help
help check -h
help --helpers run --help
help FILE check --help
help FILE check p -h
help "clusterrun run \[FILE\]" --help
help "clusterrun 0.1.0" --version

# Files and pipes

run run "$room/missing"
expect "a file that is not there" 4 "$room/nothing" "cannot read"
run check "$room"
expect "a folder" 4 "$room/nothing" "cannot read"
"$program" check <&- >"$room/out" 2>"$room/err"
got=$?
expect "closed standard input" 4 "$room/nothing" "cannot read"
: >"$room/out"
"$program" run "$room/plan.json" >&- 2>"$room/err"
got=$?
expect "closed standard output" 4 "$room/nothing" "cannot write"
"$program" run "$room/plan.json" >/dev/full 2>"$room/err"
got=$?
expect "a full disk" 4 - "cannot write"
"$program" --help >/dev/full 2>"$room/err"
got=$?
expect "help on a full disk" 4 - "cannot write"
{
    sleep 0.3
    "$program" run "$room/plan.json" 2>"$room/err"
    echo $? >"$room/status"
} | true
got=$(cat "$room/status")
expect "a pipe that nobody reads" 4 - "cannot write"
{
    head -c 20 "$room/plan.json"
    sleep 0.2
    tail -c +21 "$room/plan.json"
} | {
    "$program" 2>"$room/err"
    echo $? >"$room/status"
} | cat >"$room/out"
got=$(cat "$room/status")
expect "a slow pipe" 0 "$room/report" ""
if [ "$program" = "$top/crates/clusterrun/out/clusterrun" ]; then
    (cd "$room" && "$top/clusterrun" run plan.json) >"$room/out" 2>"$room/err"
    got=$?
    expect "the script at the top, from another folder" 0 "$room/report" ""
    "$top/clusterrun" --help >"$room/out" 2>"$room/err"
    got=$?
    grep -q "clusterrun prove" "$room/out" || got="$got without 'clusterrun prove'"
    expect "the script's own word in its help" 0 - ""
fi

# Scripts

: >"$room/script"
faulty "no bytes" "refused S1"
printf '{"version":1,"agents":[' >"$room/script"
faulty "a script that is cut short" "refused S1"
{
    cat "$room/plan.json"
    printf x
} >"$room/script"
faulty "a byte after the plan" "refused S1"
printf '{"version":1,"agents":[{"name":"\377","callbacks":{},"jobs":[]}]}' >"$room/script"
faulty "bytes that are no UTF-8" "refused S1"
printf '%0127d' 0 | sed 's/0/[/g' >"$room/deep"
printf '%0127d' 0 | sed 's/0/]/g' >>"$room/deep"
cp "$room/deep" "$room/script"
faulty "127 levels" "refused S2"
{
    printf '['
    cat "$room/deep"
    printf ']'
} >"$room/script"
faulty "128 levels" "refused S1"
printf '{"version":1,"agents":[],"x":0}' >"$room/script"
faulty "a key that a plan has not" "refused S2"
printf '{"version":1,"agents":[{"name":"a","callbacks":{"cb":[["collect"]]},"jobs":[]}]}' >"$room/script"
faulty "a collection in a callback" "refused S9 agent 0 callback 1 command 1"
printf '{"version":1,"agents":[{"name":"a","callbacks":{"cb":[["collect","x"]]},"jobs":[]}]}' >"$room/script"
faulty "collect with an operand in a callback" "refused S7 agent 0 callback 1 command 1"
plan "$(job "collect x")"
faulty "collect with an operand" "refused S7 agent 0 job 1 command 1"

# of_registry NAME ERRORS COMMAND: as the second command of the second job, where cb and none but it is a callback
of_registry() {
    plan_with '"cb":[]' "$(job "new x")" "$(job "registry r cb" "$3")"
    faulty "$1" "$2"
}
at='agent 0 job 2 command 2'
of_registry "a callback that is not there" "refused S6 $at" "registry x nobody"
of_registry "a callback's name in another case" "refused S6 $at" "registry x CB"
of_registry "a variable's name that is none before a callback that is not there" "refused S5 $at" "registry 1x nobody"
of_registry "a callback's name that is none" "refused S5 $at" "registry x 1x"
of_registry "a callback as undefined" "refused S7 $at" "registry x null"
of_registry "a callback as a number" "refused S7 $at" "registry 1x 1"
of_registry "registry without a callback" "refused S7 $at" "registry x"
of_registry "registry with two callbacks" "refused S7 $at" "registry x cb cb"
of_registry "register of two operands" "refused S7 $at" "register r x"
of_registry "register of five operands" "refused S7 $at" "register r x x x x"
of_registry "a token as a literal" "refused S7 $at" "register r x x null"
of_registry "a token's name that is none" "refused S5 $at" "register r x x 1x"
of_registry "a held value's name that is none, before a token's" "refused S5 $at" "register r x x- 1x"
of_registry "unregister of two operands" "refused S7 $at" "unregister x r"
of_registry "unregister of four operands" "refused S7 $at" "unregister x r x x"
of_registry "unregister of a name that is none" "refused S5 $at" "unregister x r 1x"
plan "$(job "registry x cb")"
faulty "a callback of an agent without callbacks" "refused S6 agent 0 job 1 command 1"
plan_with "$(callback B "say x" "registry y cb"),$(callback cb "registry y B" "registry y C")" "$(job "new 1x")"
faulty "a callback that is not there, in a callback" "refused S6 agent 0 callback 2 command 2"
plan_with "$(callback b "registry y nobody"),$(callback a collect)" "$(job "new 1x")"
faulty "a collection in a callback before another's fault" "refused S9 agent 0 callback 1 command 1"
printf '{"version":1,"agents":[{"name":"a","callbacks":{"cb":[]},"jobs":[]},{"name":"b","callbacks":{},"jobs":[%s]}]}' \
    "$(job "registry x cb")" >"$room/script"
faulty "a callback of another agent" "refused S6 agent 1 job 1 command 1"
plan_with "$(callback cb "register r held held" "registry r cb")" "$(job "register r x x" "unregister r r r")"
run check "$room/script"
expect "a callback that names itself" 0 "$room/ok" -

# of_main NAME ERRORS JOB: as the second job of main, beside which there is another agent
of_main() {
    cluster "$(agent main "$(job "new x")" "$3")" "$(agent other)"
    faulty "$1" "$2"
}

# of_command NAME ERRORS COMMAND: as the second command of that job
of_command() {
    of_main "$1" "$2 agent 0 job 2 command 2" "$(job "new x" "$3")"
}
at='agent 0 job 2'
of_main "a wait for nobody in particular" "refused S2" '{"on":[],"run":[]}'
of_main "a wait without a variable" "refused S2" '{"on":["other"],"run":[]}'
of_main "a wait with two variables" "refused S2" '{"on":["other","x","x"],"run":[]}'
of_main "a wait for a number" "refused S2" '{"on":[1,"x"],"run":[]}'
of_main "a wait as a text" "refused S2" '{"on":"other","run":[]}'
of_main "a wait as undefined" "refused S2" '{"on":null,"run":[]}'
of_main "a wait without commands" "refused S2" '{"on":["other","x"]}'
of_main "a job with another key" "refused S2" '{"on":["other","x"],"run":[],"off":[]}'
of_main "a wait for a name that is none" "refused S5 $at" "$(waiting 1x 1x)"
of_main "a wait for an agent that is not there" "refused S6 $at" "$(waiting nobody 1x)"
of_main "a wait for an agent's name in another case" "refused S6 $at" "$(waiting Other x)"
of_main "a wait of an agent for itself" "refused S6 $at" "$(waiting main 1x)"
of_main "a message for a variable that is none" "refused S5 $at" "$(waiting other 1x)"
of_main "a wait before the commands" "refused S6 $at" "$(waiting nobody x fly)"
of_main "a fault of a job that waits" "refused S7 $at command 1" "$(waiting other x fly)"
of_main "a wait before too many commands" "refused S5 $at" \
    "{\"on\":[\"other\",\"\"],\"run\":[$(yes '["new","x"]' | head -n 10001 | paste -s -d ,)]}"
of_command "a post to a name that is none" "refused S5" "post 1x 1x"
of_command "a post to an agent that is not there" "refused S6" "post nobody 1x"
of_command "a post to itself" "refused S6" "post main x"
of_command "a post of a name that is none" "refused S5" "post other 1x"
of_command "a post of a number" "refused S7" "post nobody 1"
of_command "a post of two values" "refused S7" "post other x x"
of_command "a buffer of too many words" "refused S10" "buffer b 16385"
of_command "a buffer of fewer words than none" "refused S10" "buffer b -1"
of_command "a buffer's name before its words" "refused S5" "buffer 1x 16385"
of_command "a buffer without words" "refused S7" "buffer b"
of_command "a buffer of undefined" "refused S7" "buffer b null"
of_command "a buffer of a variable" "refused S7" "buffer 1x x"
of_command "a buffer of more than all numbers" "refused S8" "buffer b 9007199254740992"
of_main "a buffer of a number as a text" "refused S7 $at command 1" '{"run":[["buffer","b","4"]]}'
of_main "a buffer of true" "refused S7 $at command 1" '{"run":[["buffer","b",true]]}'
of_main "a buffer of a fraction" "refused S8 $at command 1" '{"run":[["buffer","b",1.5]]}'
of_main "a buffer of -0" "refused S8 $at command 1" '{"run":[["buffer","b",-0]]}'
of_command "length of two buffers" "refused S7" "length x x x"
of_command "sameblock of one buffer" "refused S7" "sameblock x x"
of_command "a load without an index" "refused S7" "load x x"
of_command "an index that is a name" "refused S7" "load 1x x x"
of_command "an index that is undefined" "refused S7" "add x x null 1"
of_command "a buffer's name that is none, before an index" "refused S5" "load x 1x 9007199254740992"
of_command "an index outside the numbers" "refused S8" "load x x 9007199254740992"
of_command "a store without a number" "refused S7" "store x 0"
of_command "a store of undefined" "refused S7" "store x 0 null"
of_command "a store of a number outside" "refused S8" "store x 0 -9007199254740992"
of_command "an add without a number" "refused S7" "add x x 0"
of_command "an add of a variable" "refused S7" "add x x 0 x"
of_command "a collection for later" "refused S7" "collectlater"
plan_with "$(callback cb "buffer b 16385")" "$(job "new 1x")"
faulty "a buffer of too many words in a callback" "refused S10 agent 0 callback 1 command 1"
plan_with "$(callback cb "post a x")" "$(job "new 1x")"
faulty "a post to itself in a callback" "refused S6 agent 0 callback 1 command 1"
cluster "$(agent main "$(waiting other x "post other x" "buffer b 16384" "load x b -1" "store b 16384 -1")")" "$(agent other)"
run check "$room/script"
expect "a job that waits, and indexes out of range" 0 "$room/ok" ""

# Collections

kept=$(job "new a" "weakref w a" "let a null" collect "deref b w" "say b")
plan "$kept"
reported "a target that a job keeps alive" "emptied 0" "say object 1"
plan "$kept" "$(job "let b null" collect "deref b w" "say b")"
reported "a target that no job keeps alive any more" "emptied 0" "say object 1" "emptied 1" "say undefined"
plan "$(job "new t" "new s" "set t p s" "weakref u t" "weakref v s" "let t null" "let s null")" \
    "$(job collect "deref x u" "deref y v" "say x" "say y")"
reported "a target that leads to another" "emptied 2" "say undefined" "say undefined"
plan "$(job "new a" "new b" "set a p b" "set b p a" "weakref w a" "let a null" "let b null" collect)" \
    "$(job collect "deref x w" "say x")"
reported "a target in a cycle" "emptied 0" "emptied 2" "say undefined"

# Registrations

cb='"cb":[]'
one=$(job "registry r cb" "new x" "let h 5" "register r x h x" "let x null" collect)
plan_with "$cb" "$one"
cleaned "a target that is its own token" "0 0 0 1" "emptied 1" "cleanup 1 held 5"
plan_with "$(callback cb "say held" "set held p held" "say held")" "$one" "$(job "say held")"
cleaned "a refusing callback" "0 0 0 1" "emptied 1" "cleanup 1 held 5" "say 5" "error TypeError: not an object" "say 5"
plan_with "$cb" "$(job "registry r cb" "new x" "new h" "set h p x" "register r x h" "let x null" "let h null" collect)"
cleaned "a held value that leads to its target" "1 0 0 0" "emptied 0"
plan_with "$cb" "$(job "registry r cb" "new x" "new y" "new t" "let h 1" "register r x h t" "register r y h t" \
    "let x null" collect "unregister b r t" "say b")"
cleaned "a token of two, one of which awaits its cleanup" "0 0 2 0" "emptied 1" "say true"
plan_with "$(callback cb "set held p held")" "$(job "registry r cb" "new x" "new y" "let h 1" "let i 2" \
    "register r x h" "register r y i" "let x null" "let y null" collect)"
cleaned "a refusal, and another cleanup job" "0 0 0 2" "emptied 2" "cleanup 1 held 1" "error TypeError: not an object" \
    "cleanup 2 held 2" "error TypeError: not an object"
plan_with "$cb" "$(job "registry r cb" "new a" "register r a a")" "$(job "let n 5" "register r n n")"
cleaned "a target that is the held value" "0 0 0 0" "error TypeError: target and held value are the same" \
    "error TypeError: cannot be held weakly"
plan_with "$cb" "$(job "registry r cb" "new x" "new t" "let h 1" "register r x h t" "unregister b r t" \
    "unregister c r t" "say b" "say c" "let x null" collect)"
cleaned "what was unregistered" "0 0 1 0" "say true" "say false" "emptied 1"
plan_with "$(callback cb "say held" "deref y w" "say y")" \
    "$(job "registry r cb" "new x" "weakref w x" "let h 3" "register r x h" "let x null")" "$(job collect "say h")"
cleaned "a WeakRef to a target whose cleanup job runs" "0 0 0 1" "emptied 1" "say 3" "cleanup 1 held 3" "say 3" \
    "say undefined"
plan_with "$cb" "$(job "registry r cb" "registry q cb" "new x" "let h 1" "let i 2" "register q x i" "register r x h" \
    "let x null" collect)"
cleaned "two registries, by rising identity" "0 0 0 2" "emptied 1" "cleanup 2 held 1" "cleanup 1 held 2"

# the order of tests, and what they leave: no registration, and no assignment
plan_with "$cb" "$(job "registry r cb" "new a" "register a x a x")" "$(job "register r x x r")" "$(job "register r a a x")" \
    "$(job "let n 1" "register r a n n")" "$(job "unregister b n n")" "$(job "let b 7" "unregister b r x")" \
    "$(job "say b" "registry r cb" "say r" "symbolfor s k" "register r s n")" "$(job "register r a s s")" \
    "$(job "unregister b r s")" "$(job "register r a s x" "unregister b r a" "say b")"
cleaned "the order of tests" "1 0 0 0" "error TypeError: not a FinalizationRegistry" \
    "error TypeError: cannot be held weakly" "error TypeError: target and held value are the same" \
    "error TypeError: cannot be held weakly" "error TypeError: not a FinalizationRegistry" \
    "error TypeError: cannot be held weakly" "say 7" "say object 3" "error TypeError: cannot be held weakly" \
    "error TypeError: cannot be held weakly" "error TypeError: cannot be held weakly" "say false"

# Symbols that are held weakly, and registered ones, which are not

plan "$(job "symbol s" "say s" "weakref w s")"
reported "a symbol as a target" "say symbol 1"
plan "$(job "symbolfor f k" "say f" "weakref w f")"
reported "a registered symbol as a target" 'say symbolfor "k"' "error TypeError: cannot be held weakly"
plan "$(job "symbol k" "new v" "weakmap m" "wmset m k v" "set v p k" "let k null" "let v null" collect)"
reported "a symbol as a key that its value leads to" "emptied 2"
plan_with "$cb" "$(job "registry r cb" "symbol s" "let h 5" "register r s h s" "let s null" collect)"
cleaned "a symbol as a target and its token" "0 0 0 1" "emptied 1" "cleanup 1 held 5"
plan_with "$cb" "$(job "registry r cb" "symbol s" "register r s s")"
cleaned "a symbol that is the held value" "0 0 0 0" "error TypeError: target and held value are the same"
plan "$(job "symbol s" "weakset w" "wsadd w s" "wshas x w s" "say x" "weakref u s" "deref y u" "say y")"
reported "a symbol as a member" "say true" "say symbol 1"
plan_with "$cb" "$(job "symbolfor f k" "weakmap m" "wmhas x m f" "say x" "registry r cb" "unregister y r f")"
cleaned "a registered symbol as a token" "0 0 0 0" "say false" "error TypeError: cannot be held weakly"
plan "$(job "symbol s" "weakref w s")" "$(job "let s null" collect "deref x w" "say x" "weakref v s")"
reported "a symbol that was emptied" "emptied 1" "say undefined" "error TypeError: cannot be held weakly"
plan "$(job "symbol s" "weakref w s" "let s null" collect "deref x w" "same y x s" "say y" "weakset m" "wsadd m x" \
    "wshas y m x" "say y" "set x p x")" "$(job "let x null" collect)"
reported "a symbol that a deref gives" "emptied 0" "say false" "say true" "error TypeError: not an object" "emptied 1"

# FinalizationRegistries are never emptied, nor what their properties and their cells' held values lead to
plan_with "$cb" "$(job "registry r cb" "new p" "set r k p" "new h" "new x" "register r x h x" "weakref w r" \
    "let p null" "let h null" "let r null" "let x null" collect)" "$(job "deref r w" "say r" "get p r k" "say p" collect)" \
    "$(job "let held null" collect)"
cleaned "a registry that nothing holds" "0 0 0 1" "emptied 1" "cleanup 1 held object 3" "say object 1" "say object 2" \
    "emptied 0" "emptied 1"

# of two collections in a job the first decides the place of a registry in the queue; a refusal puts it last
plan_with "$(callback cb "say held" "keys held"),\"calm\":[]" "$(job "registry q calm" "registry r cb" "new x" "new y" \
    "new z" "let i 1" "let j 2" "let k 3" "register r x i" "register r y j" "register q z k" "let x null" collect \
    "let y null" "let z null" collect)"
cleaned "a queue of two" "0 0 0 3" "emptied 1" "emptied 2" "cleanup 1 held 1" "say 1" "error TypeError: not an object" \
    "cleanup 3 held 3" "cleanup 2 held 2" "say 2" "error TypeError: not an object"

# a callback unregisters what awaits the same cleanup job, and registers anew
plan_with "$(callback cb "unregister b r t" "say b" "new n" "register r n held n" "let n null")" \
    "$(job "registry r cb" "new t" "new x" "new y" "let h 4" "register r x h t" "register r y h t" "let x null" \
        "let y null" collect)" "$(job collect)"
cleaned "a callback that unregisters the rest" "1 0 1 2" "emptied 2" "cleanup 1 held 4" "say true" "emptied 1" \
    "cleanup 3 held 4" "say false"
plan_with "$(callback cb "unregister b r t")" "$(job "registry r cb" "new t" "new x" "register r x t t" "let x null" \
    collect "unregister b r t" "say b")" "$(job "say held")"
cleaned "a cleanup job that finds nothing" "0 0 1 0" "emptied 1" "say true" "say undefined"

# Blocks and messages

cluster "$(agent main "$(job "buffer b 16384" "store b 16383 7" "post worker b" "let b null" collect)")" \
    "$(agent worker "$(waiting main m "load x m 16383" "say x" "load x m 16384")")"
told "a block that goes to a worker" "1 1 1 1 0" "agent main" "emptied 1" "$end" "agent worker" "say 7" \
    "error RangeError: index" "$end"
cluster "$(agent a "$(job "buffer b 4" "post w b")")" "$(agent w)"
told "a buffer that nobody takes" "1 1 1 0 1" "agent a" "$end" "agent w" "$end"
cluster "$(agent a "$(waiting b m)" "$(job "let x 1" "post b x")")" "$(agent b "$(waiting a m "say m")")"
told "two that wait for each other" "0 0 1 1 0" "agent a" "skipped 1" "$end" "agent b" "say 1" "$end"
plan "$(job "buffer b 1" "store b 0 -1" "load x b 0" "say x" "add y b 0 2" "say y" "load z b 0" "say z")"
told "words modulo 2^32" "1 1 0 0 0" "agent a" "say 4294967295" "say 4294967295" "say 1" "$end"
plan "$(job "buffer b 0" "length n b" "say n" "load x b 0")"
told "a block without words" "1 1 0 0 0" "agent a" "say 0" "error RangeError: index" "$end"
cluster "$(agent main "$(job "buffer b 2" "post worker b" "post worker b")")" \
    "$(agent worker "$(waiting main m "copy p m")" "$(waiting main m "same x p m" "say x" "sameblock y p m" "say y")")"
told "one block in two messages" "1 1 2 2 0" "agent main" "$end" "agent worker" "say false" "say true" "$end"
cluster "$(agent a)" "$(agent b "$(waiting a m "say m")")"
told "a wait for one that has ended" "0 0 0 0 0" "agent a" "$end" "agent b" "skipped 1" "$end"
cluster "$(agent a "$(job "new o" "post w o")")" "$(agent w)"
told "a post of an object" "0 0 0 0 0" "agent a" "error DataCloneError: value cannot be posted" "$end" "agent w" "$end"
plan "$(yes '["buffer","b",0]' | head -n 257 | paste -s -d , | sed 's/.*/{"run":[&]}/')"
told "257 blocks" "256 256 0 0 0" "agent a" "error limit: blocks" "$end"
cluster "$(agent a "$(job "set x p x" "post w x")")" "$(agent w "$(waiting a m "say m")")"
told "a job that ends before it posts" "0 0 0 0 0" "agent a" "error TypeError: not an object" "$end" "agent w" "skipped 1" "$end"
cluster "$(agent a "$(waiting b m)")" "$(agent b "$(waiting c m)")" "$(agent c "$(waiting a m)")"
told "three that wait in a ring" "0 0 0 0 0" "agent a" "skipped 1" "$end" "agent b" "skipped 1" "$end" "agent c" "skipped 1" "$end"

# what is no buffer is told before what index there is not, and what can't be posted before that no more can
plan "$(job "new o" "length x o")" "$(job "buffer b 1" "sameblock x b o")" "$(job "sameblock x o b")" "$(job "load x o 7")" \
    "$(job "store x 7 1")" "$(job "let x 5" "add x b 1 1")" "$(job "say x" "add x b -1 1")" "$(job "say x" "say b")"
no='error TypeError: not a SharedArrayBuffer'
told "what is no buffer" "1 1 0 0 0" "agent a" "$no" "$no" "$no" "$no" "$no" "error RangeError: index" "say 5" \
    "error RangeError: index" "say 5" "say object 2" "$end"

# each kind of value that a message can carry, and two that it can't
cluster "$(agent a "$(job "post b x" "let x -1" "post b x" "let x text" "post b x" "symbolfor x k" "post b x" "same x x x" \
    "post b x" "symbol x" "post b x")" "$(job "buffer x 1" "post b x" "weakref x x" "post b x")")" \
    "$(agent b "$(for _ in 1 2 3 4 5 6 7; do waiting a m "say m"; done)")"
refused='error DataCloneError: value cannot be posted'
told "what can be posted" "1 1 6 6 0" "agent a" "$refused" "$refused" "$end" "agent b" "say undefined" "say -1" 'say "text"' \
    'say symbolfor "k"' "say true" "say object 1" "skipped 7" "$end"

# A plan of many pieces, whole and without its last bracket

python3 "$top/bench/plans.py" check 20 >"$room/large.json"
run check "$room/large.json"
expect "a large plan" 0 "$room/ok" 'warning "/agents/0/jobs/0/run/1" x is read before anything assigns it, so it is undefined'
head -c -2 "$room/large.json" >"$room/script"
faulty "a large plan without its last byte" "refused S1"

# Eight agents, the most that a plan has: each with a heap, variables and a KeptAlive of its own, in the
# order of the plan

for name in h g f e d c b a; do
    printf '{"name":"%s","callbacks":{},"jobs":[' "$name"
    job "new o" "say o" "weakref w o" "let o null" "let n $name" collect "say n" | tr -d '\n'
    printf ',{"run":[["collect"],["deref","o","w"],["say","o"],["set","o","k","n"],["say","n"]]}]}\n'
done | paste -s -d , | sed 's/.*/{"version":1,"agents":[&]}/' >"$room/script"
{
    for name in h g f e d c b a; do
        printf 'agent %s\nsay object 1\nemptied 0\nsay "%s"\n' "$name" "$name"
        printf 'emptied 1\nsay undefined\nerror TypeError: not an object\n'
        echo "$end"
    done
    tail -n 3 "$room/report"
} >"$room/wanted"
run run "$room/script"
expect "eight agents" 0 "$room/wanted" ""
run check "$room/script"
expect "eight agents, checked" 0 "$room/ok" ""

# Plans of many commands

# many COUNT COMMAND: so many jobs of 10,000 times this command
many() {
    run=$(yes "$2" | head -n 10000 | paste -s -d ,)
    left=$1
    while [ "$left" -gt 0 ]; do
        printf '{"run":[%s]}\n' "$run"
        left=$((left - 1))
    done
}

# joined [CALLBACKS]: the file script becomes a plan of one agent with the jobs on standard input
joined() {
    paste -s -d , |
        sed "s/.*/{\"version\":1,\"agents\":[{\"name\":\"a\",\"callbacks\":{${1-}},\"jobs\":[&]}]}/" >"$room/script"
}

{
    many 7 '["copy","b","a"]'
    job "let c last" "say c"
} | joined
[ "$(wc -c <"$room/script")" -gt 1000000 ] || echo "FAILED: the long plan is short"
reported "a plan of more than a million bytes" 'say "last"'
{
    many 100 '["new","x"]'
    job "say x" "new y" "say y"
    job "weakmap y" "say y"
    job "weakset y" "say y"
    job "weakref y x" "say y"
    job "weakref y y" "say y"
    job "registry y cb" "say y"
    job "buffer y 1" "say y"
} | joined '"cb":[]'
reported "an object past the last identity" "say object 1000000" "error limit: values" "error limit: values" \
    "error limit: values" "error limit: values" "error TypeError: cannot be held weakly" "error limit: values" \
    "error limit: values"
{
    many 99 '["new","x"]'
    yes '["new","x"]' | head -n 9999 | paste -s -d , | sed 's/.*/{"run":[&]}/'
    job "say x" "new y" "say y" "say y"
} | joined
reported "the last identity" "say object 999999" "say object 1000000" "say object 1000000"
{
    printf '{"version":1,"agents":[%s,{"name":"w","callbacks":{},"jobs":[' "$(agent a "$(job "buffer b 0" "post w b")")"
    {
        many 100 '["new","o"]'
        waiting a m "say m"
    } | paste -s -d ,
    echo ']}]}'
} >"$room/script"
told "a received buffer past the last identity" "1 1 1 1 0" "agent a" "$end" "agent w" "error limit: values" "$end"
cluster "$(agent a "$(many 1 '["post","w","x"]')" "$(job "post w x")" "$(job "new x" "post w x")")" "$(agent w)"
told "10,001 posts" "0 0 10000 0 10000" "agent a" "error limit: posts" "$refused" "$end" "agent w" "$end"

# as many messages as three agents can post lie in the ports at once, and nobody takes one
for pair in "a b" "b c" "c a"; do
    agent "${pair% *}" "$(yes "[\"post\",\"${pair#* }\",\"x\"]" | head -n 10000 | paste -s -d , | sed 's/.*/{"run":[&]}/')"
done | paste -s -d , | sed 's/.*/{"version":1,"agents":[&]}/' >"$room/script"
told "30,000 posts" "0 0 30000 0 30000" "agent a" "$end" "agent b" "$end" "agent c" "$end"

# Heaps of many objects, collected twice: all held by one, and each held by the next

emptied_of() {
    printf 'agent a\nemptied 0\nemptied %s\nend live 0 awaiting 0 unregistered 0 taken 0\ncluster\nblocks 0 released 0\nmessages posted 0 taken 0 drained 0\n' "$1"
}

python3 "$top/bench/plans.py" wide 20000 >"$room/heap.json"
emptied_of 20001 >"$room/wanted"
run run "$room/heap.json"
expect "a wide heap" 0 "$room/wanted" ""
python3 "$top/bench/plans.py" list 500 >"$room/heap.json"
emptied_of 500 >"$room/wanted"
run run "$room/heap.json"
expect "a long list" 0 "$room/wanted" ""

# The examples

for example in "$top"/examples/*.json; do
    run run "$example"
    # Two agents race in it, so in threads it has two reports: by turns this line is `say 7`.
    [ "$(basename "$example")" != races.json ] || sed -i 's/^say 0$/say 7/' "$room/out"
    expect "$(basename "$example")" 0 "${example%.json}.report" ""
    run check "$example"
    # `explain` has the warnings after `ok`.
    expect "$(basename "$example"), checked" 0 "$room/ok" "$("$program" explain "$example" | tail -n +2)"
done

echo "$passed passed, $failed failed"
[ "$failed" -eq 0 ]
