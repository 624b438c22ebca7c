#!/bin/sh
# The C library, from C and from Python: it is built over the libraries that the gate built, as `./clusterrun library`
# builds it, and linked; then library.c, library.py, steps.c and steps.py, which stand beside this and say what they try.
#
# Usage: library.sh PROGRAM [COUNT SEED [ARCHIVE]]. COUNT is how many random plans there are for each of the two in
# Python, 300 without it; ARCHIVE is an archive of es_library that is built already. The last line is
# 'N passed, M failed'.
set -u

program=$(readlink -f "$1")
count=${2:-300}
seed=${3:-1}
top=$(dirname "$(dirname "$(dirname "$(readlink -f "$0")")")")
room=$(mktemp -d)
trap 'rm -rf "$room"' EXIT
archive=${4:-$room/libes_library.a}
passed=0
failed=0

give_up() {
    echo "FAILED: $1"
    echo "0 passed, 1 failed"
    exit 1
}

# The libraries that the crate $1 names, of the repository and of the toolchain, one a line.
named_by() { sed -n "s/^$1\( staticlib\)\{0,1\}: *//p" "$top/crates.txt" | tr ' ' '\n'; }

# The gate proves the crate and leaves no archive, so the toolchain's compiler is called once more, which proves it again.
# It finds each library where the gate left it.
build() {
    kit=$(dirname "$(rt doc)")
    set -- --crate-name es_library src/lib.rt --extern std="$kit/rlibs/std.rlib" -L dependency="$kit/rlibs"
    for crate in $(named_by es_library); do
        folder=$kit/rlibs
        [ ! -d "$top/crates/$crate" ] || folder=$top/crates/$crate/out/rlib
        set -- "$@" --extern "$crate=$folder/$crate.rlib"
    done
    for folder in "$top"/crates/*/out/rlib; do
        set -- "$@" -L dependency="$folder"
    done
    (cd "$top/crates/es_library" && "$kit/bin/rattle" build "$@" --antt-project "$kit/rattle/logic/antt-project.json" \
        --logic-built "$kit/logic_built" --jobs 1 --links es_library= --crate-type staticlib \
        --toolchain "$kit/toolchain" --backend llvm -o "$archive") >"$room/built" 2>&1 && return
    tail -n 20 "$room/built"
    return 1
}

# Runs a test, shows what it says, and adds its numbers.
try() {
    name=$1
    shift
    "$@" >"$room/said" 2>&1
    status=$?
    sed '$d' "$room/said"
    numbers=$(tail -n 1 "$room/said" | sed -n 's/^\([0-9][0-9]*\) passed, \([0-9][0-9]*\) failed$/\1 \2/p')
    if [ -z "$numbers" ]; then
        tail -n 1 "$room/said"
        echo "FAILED: $name did not say how many passed, and ended with status $status"
        failed=$((failed + 1))
        return
    fi
    passed=$((passed + ${numbers% *}))
    failed=$((failed + ${numbers#* }))
}

[ -e "$archive" ] || build || give_up "the archive was not built"
"$top/embed/make.sh" "$archive" "$room" >"$room/made" 2>&1 || { cat "$room/made"; give_up "the C library was not made"; }

# It exports its calls and the heap's, and takes nothing but what any C library has.
nm -g --defined-only "$room/libclusterrun.a" 2>/dev/null | awk '$2 == "T" { print $3 }' | sort >"$room/exported"
printf '%s\n' clusterrun_begin clusterrun_check clusterrun_cluster_audit clusterrun_cluster_end \
    clusterrun_cluster_free clusterrun_cluster_said clusterrun_cluster_step clusterrun_keep_check clusterrun_keep_run \
    clusterrun_keep_trace clusterrun_kept_free clusterrun_kept_part clusterrun_run clusterrun_trace rattle_alloc rattle_dealloc rattle_realloc >"$room/wanted"
nm -u "$room/libclusterrun.a" 2>/dev/null | awk '$1 == "U" { print $2 }' | sort -u >"$room/taken"
printf '%s\n' free malloc memcpy memmove memset rattle_alloc rattle_dealloc rattle_realloc realloc >"$room/allowed"
if cmp -s "$room/exported" "$room/wanted" && [ -z "$(comm -23 "$room/taken" "$room/allowed")" ]; then
    passed=$((passed + 1))
else
    failed=$((failed + 1))
    echo "FAILED: the library exports $(paste -s -d ' ' "$room/exported") and takes $(paste -s -d ' ' "$room/taken")"
fi

flags="-std=c11 -O2 -Wall -Wextra -Werror"
compiler=${CC:-cc}
for name in run step; do
    # shellcheck disable=SC2086
    "$compiler" $flags -pedantic -o "$room/$name" "$top/embed/$name.c" "$room/libclusterrun.a" ||
        give_up "embed/$name.c was not compiled"
done
for name in library steps; do
    # shellcheck disable=SC2086
    "$compiler" $flags -D_GNU_SOURCE -o "$room/$name" "$top/tests/library/$name.c" "$room/libclusterrun.a" \
        -Wl,--wrap=malloc,--wrap=realloc,--wrap=free || give_up "tests/library/$name.c was not compiled"
done

printf '{"version":1,"agents":[{"name":"a","callbacks":{},"jobs":[{"run":[["new","o"],["get","x","o"]]}]}]}' >"$room/faulty.json"
try library.c "$room/library" "$top"/examples/*.json "$room/faulty.json"
try library.py "$top/tests/library/library.py" "$program" "$room" "$count" "$seed"
try steps.c "$room/steps" "$top"/examples/*.json
try steps.py "$top/tests/library/steps.py" "$program" "$room" "$count" "$seed"
echo "$passed passed, $failed failed"
[ "$failed" -eq 0 ]
