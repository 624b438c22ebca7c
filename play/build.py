#!/usr/bin/env python3
"""Builds the page and the module for JavaScript, over the crates that `./clusterrun library` proved and built.

Usage: build.py [--kept-module]

It proves es_library, compiles it for WebAssembly, and writes clusterrun.mjs, package.json, index.html and BUILT, which
says of which commit, kit and sources they are. With --kept-module the module is that of the kept clusterrun.mjs: for those
who change the page alone, and can't wait two minutes. That needs no kit.
"""

import argparse
import hashlib
import os
import sys
import zlib

sys.path.insert(0, os.path.join(os.path.dirname(os.path.abspath(__file__)), "lib"))

import module  # noqa: E402
import origin  # noqa: E402
import page  # noqa: E402


def main():
    parser = argparse.ArgumentParser(description=__doc__, formatter_class=argparse.RawDescriptionHelpFormatter)
    parser.add_argument("--kept-module", action="store_true")
    given = parser.parse_args()
    # The kit is the one that proved the module's code.
    kept = origin.read(os.path.join(origin.PLAY, "BUILT"))
    built = origin.now(kept["kit"] if given.kept_module else origin.kit_name())
    try:
        code, proved = (page.kept_module(), "the kept module") if given.kept_module else module.built()
    except module.NotBuilt as why:
        print(f"the page is not built: {why}", file=sys.stderr)
        return 1
    built |= {"module": hashlib.sha256(code).hexdigest(), "zlib": zlib.ZLIB_RUNTIME_VERSION}
    for name, text in page.files(code, built).items():
        with open(os.path.join(origin.PLAY, name), "w", encoding="utf-8") as file:
            file.write(text)
        print(f"{name}: {len(text.encode())} bytes")
    origin.write(os.path.join(origin.PLAY, "BUILT"), built)
    print(f"{proved}\ncommit {built['commit']}, kit {built['kit']}, module of {len(code)} bytes")
    return 0


if __name__ == "__main__":
    sys.exit(main())
