#!/bin/sh
# Makes FOLDER/libclusterrun.a of the archive that the toolchain builds of the crate es_library: it has the functions of
# the heap besides, which the toolchain brings, so that a C program needs this one archive. And where there is a C
# compiler, FOLDER/libclusterrun.so of the same, for the Python module.
#
# Usage: make.sh ARCHIVE FOLDER
set -eu

archive=$(readlink -f "$1")
folder=$(readlink -f "$2")
heap=$(dirname "$(rt doc)")/c/liblibc_c.a
room=$(mktemp -d)
trap 'rm -rf "$room"' EXIT

mkdir "$room/heap"
(cd "$room/heap" && ar x "$heap")
cp "$archive" "$room/libclusterrun.a"
ar rs "$room/libclusterrun.a" "$room"/heap/*.o
if command -v "${CC:-cc}" >/dev/null; then
    "${CC:-cc}" -shared -o "$room/libclusterrun.so" -Wl,--whole-archive "$room/libclusterrun.a" -Wl,--no-whole-archive
    mv "$room/libclusterrun.so" "$folder/"
else
    rm -f "$folder/libclusterrun.so"
    echo "there is no C compiler here, so libclusterrun.so is not made" >&2
fi
mv "$room/libclusterrun.a" "$folder/"
