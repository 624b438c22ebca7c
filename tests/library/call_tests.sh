#!/bin/sh
# Public calls of crates below the program, each by itself: what no program shows of them. The tests stand in
# tests/library/call_tests and are run by the toolchain's try, as they stand, over the sources of the crates, with its checks
# of memory. They are not proved, as they promise nothing.
# Usage: call_tests.sh [NAME]: those whose name has this in it. Prints each test, and 'N passed, M failed' last.
set -u

top=$(dirname "$(dirname "$(dirname "$(readlink -f "$0")")")")
room=$(mktemp -d)
trap 'rm -rf "$room"' EXIT

mkdir -p "$room/crates/call_tests"
cat "$top/crates.txt" "$top/tests/library/call_tests/stands_on.txt" >"$room/crates.txt"
cp "$top/HANDLES" "$room/"
for crate in $(sed -n 's/^\([a-z_]*\).*:.*/\1/p' "$top/crates.txt"); do
    mkdir -p "$room/crates/$crate"
    for part in src specs proofs; do
        [ ! -d "$top/crates/$crate/$part" ] || cp -R "$top/crates/$crate/$part" "$room/crates/$crate/"
    done
done
# The gate refuses a file that ends in .rt and stands in no crate, so these end in .rattle until they are here.
cp -R "$top/tests/library/call_tests/src" "$room/crates/call_tests/"
find "$room/crates/call_tests" -name '*.rattle' | while read -r file; do
    mv "$file" "${file%.rattle}.rt"
done

(cd "$room/crates/call_tests" && rt try --test >"$room/said" 2>&1)
sed -n '/^test .*\.\.\./p' "$room/said"
numbers=$(sed -n 's/^test result: .* \([0-9][0-9]*\) passed; \([0-9][0-9]*\) failed;.*/\1 passed, \2 failed/p' "$room/said")
if [ -z "$numbers" ]; then
    tail -n 20 "$room/said"
    numbers="0 passed, 1 failed"
fi
echo "$numbers"
case $numbers in *", 0 failed") ;; *) exit 1 ;; esac
