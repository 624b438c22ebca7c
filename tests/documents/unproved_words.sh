#!/bin/sh
# Which crate the script ./clusterrun runs on which words, where nothing is built. In place of the toolchain's rt
# stands one that says where it was called and with which words; tests/documents/first_call.sh runs the real one.
# Usage: unproved_words.sh. Takes a second. The last line is `N passed, M failed`.
set -u

top=$(dirname "$(dirname "$(dirname "$(readlink -f "$0")")")")
room=$(mktemp -d)
trap 'rm -rf "$room"' EXIT
mkdir -p "$room/bin" "$room/tree/crates/first_run" "$room/tree/crates/first_words" "$room/tree/crates/clusterrun"
cp "$top/clusterrun" "$room/tree/"
cat >"$room/bin/rt" <<'END'
#!/bin/sh
# Says the crate and the words behind `--`, each in brackets, and then its input.
crate=${PWD##*/}
while [ "$1" != -- ]; do shift; done
shift
[ $# -eq 0 ] || printf '[%s]' "$@"
echo " of $crate, $(cat)"
echo "run=ended status=0 runners=1 proved=no" >&2
END
chmod +x "$room/bin/rt"
PATH=$room/bin:$PATH
export PATH
passed=0
failed=0
cd "$room" || exit 1
echo "{}" >plan.txt

# expect SAID WORD..: the script on these words, with `given` on standard input, runs what SAID says.
expect() {
    wanted=$1
    shift
    got=$(echo given | "$room/tree/clusterrun" "$@" 2>/dev/null | head -n 1)
    if [ "$got" = "$wanted" ]; then
        passed=$((passed + 1))
    else
        failed=$((failed + 1))
        echo "$*: '$got' and not '$wanted'"
    fi
}

expect " of first_run, given"
expect "[run] of first_run, given" run
expect "[run] of first_run, given" run --turns
expect "[run][plan.json] of first_run, " run plan.txt
expect "[run][plan.json] of first_run, " run --turns plan.txt
expect "[run][plan.json] of first_run, " run plan.txt --turns
expect "[run][missing.json] of first_run, " run missing.json
expect "[check] of first_run, given" check
expect "[check][plan.json] of first_run, " check plan.txt
expect "[check][--turns][plan.json] of clusterrun, " check --turns plan.txt
expect "[check][--races][plan.json] of clusterrun, " check --races plan.txt
expect "[check][--races] of clusterrun, given" check --races
expect "[check][plan.json][plan.txt] of clusterrun, " check plan.txt plan.txt
expect "[run][plan.json][--turns][--turns] of clusterrun, " run plan.txt --turns --turns
expect "[run][--turns][--turns] of clusterrun, given" run --turns --turns
expect "[run][plan.json][--watch][3] of clusterrun, " run plan.txt --watch 3
expect "[run][--helpers][2] of clusterrun, given" run --helpers 2
expect "[run][-x] of clusterrun, given" run -x
expect "[explain][plan.json] of clusterrun, " explain plan.txt
expect "[trace][plan.json][--all] of clusterrun, " trace plan.txt --all
expect "[walk] of first_words, " walk
expect "[help][run] of first_words, " help run
expect "[--help] of first_words, " --help
expect "[-h] of first_words, " -h
expect "[--version] of first_words, " --version
expect "[-V] of first_words, " -V
expect "[--] of clusterrun, " --
expect "[--turns] of clusterrun, " --turns
echo "$passed passed, $failed failed"
[ "$failed" -eq 0 ]
