"""The WebAssembly module of es_library, with addresses of 64 bits.

The kit can't build for WebAssembly what takes memory. So the code that it proves and lowers for x86-64 is taken over.
For a processor that has no more than all of them have, that is plain LLVM code, which names no processor's own function
and calls the heap alone; both machines have addresses of 64 bits and put the low byte first. It is compiled by the kit's
clang, and linked with our heap (heap.c) and numbers of 128 bits (wide.c).
"""

import glob
import os
import re
import subprocess
import tempfile

from origin import LIBRARY, PLAY, TOP, kit, needs

EXPORTS = ["clusterrun_run", "clusterrun_check", "clusterrun_trace", "malloc", "free", "limit"]
TARGET = ["--target=wasm64-unknown-unknown", "-mcpu=lime1", "--no-default-config"]
# As the kit calls its clang for WebAssembly.
OPTIONS = [
    "-mllvm", "-expand-div-rem-bits=64", "-mllvm", "-expand-fp-convert-bits=64", "-ffunction-sections",
    "-fdata-sections", "-mllvm", "-trap-unreachable", "-mllvm", "-disable-machine-licm", "-mllvm",
    "-disable-postra-machine-licm", "-mllvm", "-sink-common-insts=false", "-fintegrated-cc1", "-Werror",
]
C_OPTIONS = ["-std=c23", "-O2", "-Wall", "-Wextra", "-Werror", "-ffreestanding", "-fno-builtin", "-nostdlib"]
LAYOUT = "e-m:e-p:64:64-p10:8:8-p20:8:8-i64:64-i128:128-n32:64-S128-ni:1:10:20"
# The stack lies first: one that is too deep leaves the memory, and the call stops.
LINKING = ["-mwasm64", "--no-entry", "--stack-first", "-z", "stack-size=1048576", "--gc-sections", "--strip-all"]
ALLOWED = re.compile(r"rattle_(alloc|realloc|dealloc)$|llvm\.(?!x86)|mem(cpy|move|set|cmp)$")


class NotBuilt(Exception):
    """Why there is no module."""


def lacking():
    """The crates below the library that are not built."""
    below = [crate for crate in needs()[LIBRARY] if crate in needs()]
    return [crate for crate in below if not os.path.exists(f"{TOP}/crates/{crate}/out/rlib/{crate}.rlib")]


def watching_toolchain(room):
    """A toolchain whose clang keeps a copy of the LLVM code that it is given, as module.bc."""
    real, folder = f"{kit()}/toolchain", f"{room}/toolchain"
    os.makedirs(f"{folder}/bin")
    os.symlink(f"{real}/lib", f"{folder}/lib")
    for name in os.listdir(f"{real}/bin"):
        if name != "clang":
            os.symlink(f"{real}/bin/{name}", f"{folder}/bin/{name}")
    with open(f"{folder}/bin/clang", "w", encoding="utf-8") as file:
        file.write(f'#!/bin/sh\nfor word; do case $word in *.bc) cp "$word" "{room}/module.bc";; esac; done\n')
        file.write(f'exec "{real}/bin/clang" "$@"\n')
    os.chmod(f"{folder}/bin/clang", 0o755)
    return folder


def words(room):
    """The words with which the kit's compiler proves the library and lowers it for x86-64."""
    at, rows = kit(), needs()
    said = ["--crate-name", LIBRARY, "src/lib.rt", "--extern", f"std={at}/rlibs/std.rlib", "-L", f"dependency={at}/rlibs"]
    for crate in rows[LIBRARY]:
        folder = f"{TOP}/crates/{crate}/out/rlib" if crate in rows else f"{at}/rlibs"
        said += ["--extern", f"{crate}={folder}/{crate}.rlib"]
    for folder in sorted(glob.glob(f"{TOP}/crates/*/out/rlib")):
        said += ["-L", f"dependency={folder}"]
    return [
        f"{at}/bin/rattle", "build", *said, "--antt-project", f"{at}/rattle/logic/antt-project.json", "--logic-built",
        f"{at}/logic_built", "--jobs", "1", "--links", f"{LIBRARY}=", "--crate-type", "staticlib", "--cpu", "x86-64",
        "--toolchain", watching_toolchain(room), "--backend", "llvm", "--incremental", "out/incremental",
        "-o", f"{room}/lib{LIBRARY}.a",
    ]


def call(*command, cwd):
    ran = subprocess.run(command, cwd=cwd, stdout=subprocess.PIPE, stderr=subprocess.STDOUT, text=True, check=False)
    if ran.returncode:
        raise NotBuilt(ran.stdout)
    return ran.stdout


def lowered(room):
    """The library's LLVM code for x86-64, as text, and the line that says that it is proved."""
    said = call(*words(room), cwd=f"{TOP}/crates/{LIBRARY}")
    proved = [line for line in said.splitlines() if line.startswith("logic=proved ")]
    if not proved:
        raise NotBuilt(said)
    clang = f"{kit()}/toolchain/bin/clang"
    call(clang, "-S", "-emit-llvm", "-Xclang", "-disable-llvm-passes", "-x", "ir", "module.bc", "-o", "x86.ll", cwd=room)
    with open(f"{room}/x86.ll", encoding="utf-8") as file:
        return file.read(), proved[0]


def for_wasm(text):
    """The same code for WebAssembly: another layout and target, and no word of a processor."""
    text, layouts = re.subn(r'^target datalayout = ".*"$', f'target datalayout = "{LAYOUT}"', text, flags=re.M)
    text, targets = re.subn(r"^target triple = .*$", 'target triple = "wasm64-unknown-unknown"', text, flags=re.M)
    text = re.sub(r' "(probe-stack|stack-probe-size|target-cpu|target-features)"="[^"]*"', "", text)
    odd = [name for name in re.findall(r"^declare .*?@([\w.]+)\(", text, flags=re.M) if not ALLOWED.match(name)]
    if (layouts, targets) != (1, 1) or odd:
        raise NotBuilt(f"this code can't be taken over: it calls {odd}")
    return text


def built():
    """The module's bytes, and the line that says that its code is proved."""
    missing = lacking()
    if missing:
        raise NotBuilt(f"not proved and built: {' '.join(missing)}; './clusterrun library' does that")
    clang = f"{kit()}/toolchain/bin/clang"
    with tempfile.TemporaryDirectory() as room:
        text, proved = lowered(room)
        with open(f"{room}/wasm.ll", "w", encoding="utf-8") as file:
            file.write(for_wasm(text))
        call(clang, *TARGET, *OPTIONS, "-O3", "-c", "-x", "ir", "wasm.ll", "-o", "library.o", cwd=room)
        for name in ("heap", "wide"):
            call(clang, *TARGET, *C_OPTIONS, "-c", f"{PLAY}/{name}.c", "-o", f"{name}.o", cwd=room)
        link(clang, room)
        with open(f"{room}/clusterrun.wasm", "rb") as file:
            return file.read(), proved


def link(clang, room):
    # The kit's clang is its lld too, by this name.
    os.symlink(clang, f"{room}/wasm-ld")
    exports = [f"--export={name}" for name in EXPORTS]
    objects = ["library.o", "heap.o", "wide.o"]
    call("./wasm-ld", *LINKING, *exports, "-o", "clusterrun.wasm", *objects, cwd=room)
