#!/bin/sh
# Random graphs with entries: markers with 1 to 8 helpers give the marks of the plain one, which goes in rounds. It is the
# test of call_tests on a copy of the sources in which helpers get their pieces from two identities on, where the program
# cuts only thousands; and a marker that forgets what waited for a map is noticed.
#
# Usage: graphs.sh [COUNT]. COUNT graphs (10000) take some minutes, so it is run by hand. Nothing is proved here, so it asks
# for nothing that was built. The last line is 'N passed, M failed'.
set -u

top=$(dirname "$(dirname "$(dirname "$(readlink -f "$0")")")")
count=${1:-10000}
room=$(mktemp -d)
trap 'rm -rf "$room"' EXIT
passed=0
failed=0

# put FILE OLD NEW: writes NEW in the place of OLD, which has to stand there once.
put() {
    if [ "$(grep -c -F "$2" "$room/crates/$1")" -ne 1 ]; then
        echo "FAILED: '$2' does not stand once in $1"
        failed=$((failed + 1))
    fi
    sed -i "s|$2|$3|" "$room/crates/$1"
}

# try COUNT: runs the test on so many graphs. What it says stands in the file said.
try() {
    sed -i "s|for seed in 0\.\.[0-9]*|for seed in 0..$1|" "$room/crates/graphs/src/random.rt"
    (cd "$room/crates/graphs" && rt try --test --seconds 3600) >"$room/said" 2>&1 </dev/null
}

for crate in es_value es_mark es_parmark; do
    mkdir -p "$room/crates/$crate"
    for part in src specs proofs; do cp -R "$top/crates/$crate/$part" "$room/crates/$crate/"; done
    sed -n "/^$crate:/p" "$top/crates.txt" >>"$room/crates.txt"
done
echo "graphs: es_value es_mark es_parmark" >>"$room/crates.txt"
cp "$top/HANDLES" "$room/"
mkdir -p "$room/crates/graphs/src"
cat >"$room/crates/graphs/src/lib.rt" <<'ROOT'
//! Graphs that are drawn at random.
#![tactic(auto)]

#[cfg(test)]
mod drawn;
#[cfg(test)]
mod random;
#[cfg(test)]
mod rounds;
ROOT
for file in drawn random rounds; do
    sed 's/super::/crate::/' "$top/tests/library/call_tests/src/tests/marks/$file.rt" >"$room/crates/graphs/src/$file.rt"
done
put es_parmark/src/marking.rt "const LEAST_CUT: usize = 4096;" "const LEAST_CUT: usize = 2;"

if try "$count" && grep -q "^test result: ok. 1 passed; 0 failed" "$room/said"; then
    echo "$count graphs, none differs"
    passed=$((passed + 1))
else
    echo "FAILED: the markers differ"
    tail -n 5 "$room/said"
    failed=$((failed + 1))
fi

put es_parmark/src/entering.rt "if waiting.is_empty() {" "if !waiting.is_empty() {"
if ! try 400 && grep -q "FAILED" "$room/said"; then
    passed=$((passed + 1))
else
    echo "FAILED: a marker that forgets what waited is not noticed"
    tail -n 5 "$room/said"
    failed=$((failed + 1))
fi

echo "$passed passed, $failed failed"
[ "$failed" -eq 0 ]
