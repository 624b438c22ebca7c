"""Where a built page comes from: its sources, the kit and the commit, and the file BUILT that tells them."""

import glob
import hashlib
import os
import re
import subprocess

PLAY = os.path.dirname(os.path.dirname(os.path.abspath(__file__)))
TOP = os.path.dirname(PLAY)
LIBRARY = "es_library"
# What is made, and kept in the repository; clusterrun.d.ts is written by hand.
MADE = ["clusterrun.mjs", "index.html", "package.json"]
OTHERS = [
    "play/build.py", "play/*.c", "play/lib/*.py", "play/module/*", "play/page/*", "play/page/mistakes/*.mjs", "play/script/*.mjs", "play/syntax/*.mjs",
    "play/lessons/*.js", "examples/*.json", "examples/README.md", "engines/corpus/*/*.json", "docs/ERRORS.md", "docs/SCRIPTS.md",
    "docs/plan.schema.json", "crates/command_line/src/options.rt",
]
# What only tests of a crate read.
TESTS = re.compile(r"crates/\w+/src/tests(\.rt|/)")


def needs():
    """The crates that each crate of the repository stands on, as crates.txt has them."""
    rows = {}
    with open(os.path.join(TOP, "crates.txt"), encoding="utf-8") as file:
        for line in file:
            crate, colon, below = line.split("#")[0].partition(":")
            if colon:
                rows[crate.split()[0]] = below.split()
    return rows


def crates():
    """The C library's crate and all crates of the repository below it."""
    rows, found, left = needs(), set(), [LIBRARY]
    while left:
        crate = left.pop()
        if crate in rows and crate not in found:
            found.add(crate)
            left += rows[crate]
    return sorted(found)


def sources():
    """The files that a built page is made of, below the top: of the crates what the compiler lowers, no proof and no test."""
    patterns = [f"crates/{crate}/src/**/*.rt" for crate in crates()] + OTHERS
    found = {path for pattern in patterns for path in glob.glob(pattern, root_dir=TOP, recursive=True)}
    return sorted(path for path in found if os.path.isfile(os.path.join(TOP, path)) and not TESTS.match(path))


def kit():
    """The toolchain's folder."""
    told = subprocess.run(["rt", "doc"], stdout=subprocess.PIPE, text=True, check=True)
    return os.path.dirname(told.stdout.strip())


def kit_name():
    """What the kit calls itself and its logic, as `rattle-kit-13f dac8208d650f15bf`."""
    with open(os.path.join(kit(), "KIT-ID"), encoding="utf-8") as file:
        name, _, logic = file.readline().split()
    return f"{name} {logic}"


def checksum(kit_named):
    """One number for all sources and the kit."""
    sum_of = hashlib.sha256(kit_named.encode())
    for path in sources():
        with open(os.path.join(TOP, path), "rb") as file:
            data = file.read()
        sum_of.update(f"\n{path} {len(data)}\n".encode())
        sum_of.update(data)
    return sum_of.hexdigest()


def commit():
    """The commit that is checked out, and whether the sources differ from it."""
    def git(*words):
        return subprocess.run(["git", "-C", TOP, *words], stdout=subprocess.PIPE, text=True, check=True).stdout

    changed = git("status", "--porcelain", "--", *sources()).strip()
    return git("rev-parse", "HEAD").strip()[:12] + (" with changes" if changed else "")


def version():
    """The program's version."""
    with open(os.path.join(TOP, "crates/command_line/src/options.rt"), encoding="utf-8") as file:
        return re.search(r'VERSION: &str = "(.*)"', file.read())[1]


def now(named):
    """What is to be said of a page that is built now, by a kit of this name."""
    return {"version": version(), "commit": commit(), "kit": named, "sources": checksum(named)}


def read(path):
    """What BUILT says, by its first words."""
    with open(path, encoding="utf-8") as file:
        return dict(line.rstrip("\n").split(" ", 1) for line in file)


def write(path, built):
    with open(path, "w", encoding="utf-8") as file:
        file.writelines(f"{word} {said}\n" for word, said in built.items())
