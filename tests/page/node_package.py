"""The package for npm: what is packed, and that it is all that is needed; the types of a trace's lines beside their schema."""

import glob
import json
import os
import re
import shutil

import running

TOP = os.path.dirname(os.path.dirname(os.path.dirname(os.path.abspath(__file__))))
EXAMPLES = os.path.join(TOP, "examples")
PAGES = ["calls", "effects", "graph", "json", "judging", "kinds", "leading", "names", "replay", "scripting", "statements", "used", "warnings", "words"]
PACKED = [
    "LICENSE-APACHE", "LICENSE-MIT", "README.md", "bin.mjs", "clusterrun.d.ts", "clusterrun.mjs", "lessons/node.mjs", "package.json", "plan.schema.json",
    "explain.d.ts", "explain.mjs", "script.d.ts", "script.mjs", "trace.schema.json", *(f"page/{name}.mjs" for name in PAGES),
]
FOLDERS = ["command", "page/mistakes", "script", "syntax"]
# Copied into the folder while it is packed.
FROM_ABOVE = ["LICENSE-APACHE", "LICENSE-MIT", "docs/plan.schema.json", "docs/trace.schema.json"]
FLAG = "--experimental-wasm-memory64"
WIDE = "process.exit(WebAssembly.validate(Uint8Array.of(0,97,115,109,1,0,0,0,5,3,1,4,1)) ? 0 : 1)"
# What one who installed the package may import.
USE = """
import { readFileSync } from "node:fs";
import { createRequire } from "node:module";
const require = createRequire(import.meta.url);
const { run } = await import("clusterrun");
const { explain, warnings } = await import("clusterrun/explain");
const { ScriptFault, linesOf, planOf } = await import("clusterrun/script");
const planned = planOf('console.log("a", 1);');
const lines = linesOf(planned.trace, planned.places).map(({ text }) => text);
function faultOf(source) {
  try {
    return planOf(source);
  } catch (error) {
    return [error instanceof ScriptFault, error.start];
  }
}
const told = ["[]", new TextEncoder().encode("[").buffer, Uint8Array.of(255), planOf("1;").plan, {}].map((one) => explain(one).text);
const warned = warnings(planOf("1;").plan).warnings.length + warnings('{"version":1,"agents":[{"name":"a","callbacks":{},"jobs":[{"run":[["say","x"]]}]}]}').warnings.length;
const { version } = require("clusterrun/package.json");
const [plan, trace] = ["plan", "trace"].map((name) => require(`clusterrun/${name}.schema.json`));
console.log(JSON.stringify([run("[]").text, version, plan.title, trace.title, lines, faultOf("let a; let a;"), told, warned]));
"""

# What `explain` says of a list, of a text that is cut off, of a byte that is none of a text, of a plan as an object, and of an empty object.
EXPLAINED = [
    'S2 ""\nA plan is an object, and here stands a list.\nfound []\n', "S1 line 1 column 1\nThis [ is never closed.\n",
    "S1 line 1 column 1\nThis byte is no UTF-8.\n", "ok\n",
    'S2 ""\nA plan has version and agents: version is missing.\nfound {}\n',
]


def read(*path):
    with open(os.path.join(TOP, *path), encoding="utf-8") as file:
        return file.read()


def try_all(count, room, left_out):
    """What is packed, in a folder of its own below this one."""
    types(count)
    without_flag(count, left_out)
    if shutil.which("npm") is None:
        left_out.append("the package, as there is no npm")
        return
    inside = os.path.join(room, "package")
    shutil.copytree(os.path.join(TOP, "play"), os.path.join(inside, "play"))
    os.makedirs(os.path.join(inside, "docs"))
    for path in FROM_ABOVE:
        shutil.copy(os.path.join(TOP, path), os.path.join(inside, path))
    packed(count, inside)


def packed(count, room):
    play = os.path.join(room, "play")
    before = sorted(os.listdir(play))
    words = ["npm", "pack", "--json", "--pack-destination", room]
    quiet = {"npm_config_offline": "true", "npm_config_update_notifier": "false", "npm_config_cache": os.path.join(room, "npm")}
    status, out, err = running.answer(words, cwd=play, env={**os.environ, **quiet})
    count.expect("npm pack", status, 0)
    if status != 0:
        count.add("what npm says", err)
        return
    told = json.loads(out[out.index("["):])[0]
    inside = [os.path.relpath(path, play) for name in FOLDERS for path in glob.glob(os.path.join(play, name, "*.mjs"))]
    count.expect("what is packed", sorted(file["path"] for file in told["files"]), sorted(PACKED + inside))
    count.expect("what is left after packing", sorted(os.listdir(play)), before)
    installed(count, room, os.path.join(room, told["filename"]))


def installed(count, room, package):
    """The package as npm installs it: its command, and what may be imported of it."""
    home = os.path.join(room, "home", "node_modules", "clusterrun")
    os.makedirs(home)
    count.expect("tar", running.answer(["tar", "-xzf", package, "-C", home, "--strip-components=1"])[0], 0)
    command = os.path.join(home, json.loads(read("play", "package.json"))["bin"]["clusterrun"])
    for words in (["run"], ["trace"]):
        kind = {"run": "report", "trace": "trace"}[words[0]]
        wanted = (0, read("examples", f"heap.{kind}"), "")
        count.expect(f"the packed command: {words}", running.answer(["node", command, *words, os.path.join(EXAMPLES, "heap.json")]), wanted)
    count.expect("the packed command, by itself", running.answer([command, "check"], b"[]"), (1, "", "refused S2\n"))
    if os.path.exists(os.path.join(TOP, "play", "script", "plan_of.mjs")):
        status, out, err = running.answer(["node", command, "plan"], b"let a = {};\n")
        count.expect("the packed command on a script", (status, '"new"' in out, err), (0, True, ""))
        beside = running.answer(["node", command, "run", "--engine", "node"], b"console.log(1);\n")
        count.expect("the packed command on a script beside node", beside, (0, "same        1\n", ""))
    script = os.path.join(room, "home", "use.mjs")
    with open(script, "w", encoding="utf-8") as file:
        file.write(USE)
    flags = [] if is_wide() else [FLAG]
    titles = [json.loads(read("docs", f"{name}.schema.json"))["title"] for name in ("plan", "trace")]
    version = json.loads(read("play", "package.json"))["version"]
    wanted = (0, json.dumps(["refused S2", version, *titles, ["a 1"], [True, 11], EXPLAINED, 1], separators=(",", ":")) + "\n", "")
    status, out, err = running.answer(["node", *flags, script])
    count.expect("what may be imported", (status, out, re.sub(r".*Warning.*\n|\(Use .*\n", "", err)), wanted)


def is_wide():
    """Whether this node has memories of 64 bits without being asked for them."""
    return running.answer(["node", "-e", WIDE])[0] == 0


def without_flag(count, left_out):
    """What the module says where memories of 64 bits are missing."""
    if is_wide():
        left_out.append("a node without 64-bit memory, as this one has it")
        return
    module = os.path.join(TOP, "play", "clusterrun.mjs")
    script = f"import({json.dumps(module)}).catch((error) => console.log(error.message))"
    said = running.answer(["node", "-e", script])
    count.expect("a node that is not asked for 64-bit memory", (said[0], "64-bit WebAssembly memory" in said[1]), (0, True))


def types(count):
    """The kinds of lines in clusterrun.d.ts have the members of docs/trace.schema.json, in their order."""
    text = read("play", "clusterrun.d.ts")
    schema = json.loads(read("docs", "trace.schema.json"))
    wanted = {}
    for branch in schema["oneOf"]:
        members = schema["$defs"][branch["$ref"].rsplit("/", 1)[1]]["properties"]
        word = "event" if "event" in members else "ledger"
        wanted[f'{word}: "{members[word]["const"]}"'] = [*members]
    got = {}
    for row in re.findall(r"^  \| \{ (.*) \};?$", text, re.M):
        kind = re.search(r'(?:event|ledger): "[^"]*"', row)
        if kind:
            got[kind[0]] = re.findall(r"(\w+):", row)
    count.expect("the types of a trace's lines", got, wanted)
    steps = [sorted(step["properties"]) for step in schema["$defs"]["reason"]["anyOf"]]
    rows = re.search(r"TraceReason =\n((?:  \| .*\n)+)", text)[1]
    count.expect("the types of what keeps a value", [sorted(re.findall(r"(\w+):", row)) for row in rows.splitlines()], steps)
