"""The files that are made of the module: clusterrun.mjs, package.json and the page."""

import base64
import json
import os
import re
import zlib

import helping
import menu
from bundle import bundled
from origin import PLAY

EXPORT = re.compile(r"^export ((?:function|const) (\w+))", re.M)


def read(*path):
    with open(os.path.join(PLAY, *path), encoding="utf-8") as file:
        return file.read()


def filled(text, values):
    """A text in which each @word@ is replaced by what it stands for. No other word stands so in it."""
    return re.sub(r"@(\w+)@", lambda found: values[found[1]], text)


def said(built):
    return {word: built[word] for word in ("version", "commit", "kit")}


def kept_module():
    """The bytes of the module that is packed into the kept clusterrun.mjs."""
    packed = re.search(r'^const PACKED = "(.*)";$', read("clusterrun.mjs"), re.M)[1]
    return zlib.decompress(base64.b64decode(packed))


def script(module, built):
    """The text of clusterrun.mjs: the module is packed into it, in letters."""
    packed = base64.b64encode(zlib.compress(module, 9)).decode()
    return filled(read("module", "clusterrun.mjs"), {**said(built), "module": packed})


def package(built):
    """The text of package.json."""
    return filled(read("module", "package.json"), said(built))


def ready(script_text):
    """The module for JavaScript as a promise of what it exports."""
    exported = ", ".join(found[1] for found in EXPORT.findall(script_text))
    inside = EXPORT.sub(r"\1", script_text)
    return f"const ready = (async () => {{\n{inside}return {{ {exported} }};\n}})();\n"


def embedded(value):
    """A value as JSON that may stand in a page."""
    return json.dumps(value, ensure_ascii=False, separators=(",", ":")).replace("<", "\\u003c")


def page(script_text, built):
    """The page's text: styles, scripts, the engine and the plans stand in it."""
    lines = sum(read(name).count("\n") for name in ("heap.c", "wide.c"))
    values = {
        **said(built), "lines": str(lines), "css": "\n" + read("page", "page.css"),
        "plans": embedded(menu.plans()), "words": embedded(helping.words()),
        "engine": "\n" + ready(script_text) + bundled("page/worker.mjs"), "page": "\n" + bundled("page/page.mjs"),
    }
    for word in ("engine", "page"):
        if re.search(r"</script|<!--", values[word], re.I):
            raise ValueError(f"the scripts of {word} can't stand in a page")
    return filled(read("page", "index.html"), values)


def files(module, built):
    """The files, by name."""
    text = script(module, built)
    return {"clusterrun.mjs": text, "package.json": package(built), "index.html": page(text, built)}
