#!/usr/bin/env python3
"""Scripts in the kept page: what it shows of them, and what it does with what is written.

Usage: page_scripts.py [--pictures FOLDER] [--firefox]

- In node: which lines of scripts every engine has to print, by the rules. Of the lessons, what node may leave out is none of
  these; and of random scripts node prints them, if it collects and if it never does.
- In a browser without a window: a script that is pasted, its steps and their marks, what it printed, its plan, and its fault;
  undo, reload, links and focus; the picture by keys and in words, with neighbours, and its labels with 24 and 60 values; sizes
  of 390, 1280 and 1920 pixels; contrasts, light and dark. By hand: all that leads to a value, and what goes if that is cut, of
  a script and of a plan; the help for the word at the caret.

With --pictures the page is painted. With --firefox some of these parts are tried in Firefox, and nothing else. What it left out, for want of a tool, it says before its last line, `N passed, M failed`.
"""

import argparse
import json
import os
import re
import subprocess
import sys
import tempfile

TOP = os.path.dirname(os.path.dirname(os.path.dirname(os.path.abspath(__file__))))
sys.path.insert(0, os.path.join(TOP, "tests", "lib"))

import browser
import firefox
import kept_page
import page_browser
import page_looks
import page_trace
import running

# How many random scripts are tried.
RANDOM = 25
LESSONS = os.path.join(TOP, "play", "lessons")

SCRIPT = """const data = new WeakMap();
let user = { name: "Ada" };
data.set(user, { visits: 1 });
const ref = new WeakRef(user);
user = null;
console.log("now", ref.deref() !== undefined, 7);
await turn();
gc();
console.log("later", ref.deref());
"""
TABLE = """const registry = new FinalizationRegistry((name) => console.log("gone", name));
const cache = new WeakMap();
const table = {};
let last = table;
for (let i = 0; i < 4; i++) {
  const row = { left: {}, right: {} };
  cache.set(row, { html: {} });
  registry.register(row, `row ${i}`);
  last.next = row;
  last = row;
}
const ref = new WeakRef(last);
last = null;
"""
SIXTY = """const all = [];
for (let i = 0; i < 58; i++) all.push({});
for (let i = 0; i < 58; i++) { all[i].left = all[(i * 7 + 3) % 58]; all[i].right = all[(i * 13 + 5) % 58]; }
const ref = new WeakRef(all[20]);
"""
# Two ways to one object: a property of the table, and a variable.
LEAK = """const table = { row: { cells: 3 } };
let last = table.row;
const ref = new WeakRef(last);
await turn();
gc();
console.log(ref.deref() !== undefined);
"""
# The same in a plan: the object has two variables, a property, an entry, a WeakRef, a member, and two registrations, of one of
# which it is the target and the token, and of the other the held value.
EDGES = """{"version": 1, "agents": [{"name": "a", "callbacks": {"c": []}, "jobs": [
 {"run": [["new", "o"], ["new", "k"], ["new", "b"], ["copy", "x", "o"], ["set", "b", "p", "o"], ["weakmap", "m"],
   ["wmset", "m", "k", "o"], ["wmset", "m", "o", "k"], ["weakref", "w", "o"], ["weakset", "s"], ["wsadd", "s", "o"],
   ["registry", "r", "c"], ["register", "r", "o", "k", "o"], ["register", "r", "k", "o"]]},
 {"run": [["let", "k", null], ["collect"], ["get", "y", "b", "p"], ["set", "y", "q", "b"]]}]}]}"""
# Plans with a mistake, what the page says of it, and the letters that it marks.
MISTAKES = [
    ('{"version": 1,\n "agents": [\n  {"name": "é" "jobs": []}]}', "Line 3, column 16, S1: A comma is missing before this.", '"'),
    ('{"version": 1,\n "agent": []}', 'Line 2, S2: A plan has no member "agent": it has version and agents.', '"agent"'),
    ('{"version": 1, "agents": [{"name": "a", "callbacks": {},\n "jobs": [{"run": [["new", "o"],\n  ["nwe", "a"]]}]}]}',
     'Line 3, S7: There is no command "nwe". Did you mean new?', '["nwe", "a"]'),
]
# What the page says of the chosen value, line by line.
PANEL = "[...document.querySelectorAll('#cut p, #edges p, #edges li, #why p, #why li')].map((it) => it.textContent)"
OFFERED = "[...document.querySelectorAll('#offers li:not(.hint) code')].map((it) => it.textContent)"
MANY = """const all = [];
for (let i = 0; i < 250; i++) all.push({ next: {} });
"""

# Scripts of which each line is known by the rules: with a star what may be otherwise.
JUDGED = [
    # In the job that made the WeakRef its target stays.
    ("const r = new WeakRef({}); gc(); console.log(r.deref() !== undefined);", ["true"]),
    # A turn later an engine may have collected, though nobody asked for it here.
    ("const r = new WeakRef({}); await turn(); console.log(r.deref() !== undefined); console.log(1);", ["*true", "1"]),
    # What a variable holds is there.
    ("let o = {}; const r = new WeakRef(o); await turn(); gc(); console.log(r.deref() === o);", ["true"]),
    # But it may go as soon as nothing reads the variable any more, or not before it has another value.
    ("const o = {}, r = new WeakRef(o); await turn(); gc(); console.log(r.deref() !== undefined);", ["*true"]),
    ("const o = {}, r = new WeakRef(o); await turn(); gc(); console.log(r.deref() !== undefined); console.log(o === r);", ["true", "false"]),
    ("let o = {}; const r = new WeakRef(o); await turn(); gc(); console.log(r.deref() !== undefined); o = {}; console.log(o === r);", ["*true", "false"]),
    ("const o = { p: 1 }, r = new WeakRef(o); for (let i = 0; i < 2; i++) { if (i) console.log(r.deref() !== undefined); console.log(o.p); await turn(); "
     "gc(); }", ["1", "true", "1"]),
    ("const s = new Set(), on = (f) => { s.add(new WeakRef(f)); return f; }; const keep = on(() => 1); await turn(); gc(); "
     "console.log([...s].map((w) => w.deref() !== undefined));", ["*[ true ]"]),
    # A parameter, and what a timer will read.
    ("async function f(o) { const r = new WeakRef(o); await turn(); gc(); console.log(r.deref() === o); await turn(); gc(); "
     "console.log(r.deref() !== undefined); } await f({}); console.log('end');", ["true", "*true", "end"]),
    ("const o = { p: 1 }, r = new WeakRef(o); await turn(); setTimeout(() => console.log(o.p), 5); gc(); console.log(r.deref() !== undefined);", ["true", "1"]),
    # `this` is read as a variable is.
    ("class A { async f() { const r = new WeakRef(this); await turn(); gc(); console.log(r.deref() === this); await turn(); gc(); "
     "console.log(r.deref() !== undefined); } } await new A().f();", ["true", "*true"]),
    # A function that may still be called has what it names, and not all of its scope.
    ("const l = []; function f() { const o = {}; l.push(() => o); return new WeakRef(o); } const r = f(); await turn(); gc(); "
     "console.log(r.deref() !== undefined); console.log(l.length);", ["true", "1"]),
    ("const l = []; function f() { const o = {}; l.push(() => 1); const g = () => o; return new WeakRef(g()); } const r = f(); await turn(); gc(); "
     "console.log(r.deref() !== undefined); console.log(l.length);", ["*true", "1"]),
    ("const l = []; function f() { let o = {}; l.push(() => { o = null; }); return new WeakRef(o); } const r = f(); await turn(); gc(); "
     "console.log(r.deref() !== undefined); console.log(l.length);", ["*true", "1"]),
    # A registry has its held values, as long as something leads to the registry.
    ("const t = {}, g = new FinalizationRegistry(() => 1); let h = {}; const r = new WeakRef(h); g.register(t, h); h = null; await turn(); gc(); "
     "console.log(r.deref() !== undefined); g.unregister(t); console.log(t === r);", ["true", "false"]),
    ("const t = {}; let h = {}; const r = new WeakRef(h); new FinalizationRegistry(() => 1).register(t, h); h = null; await turn(); gc(); "
     "console.log(r.deref() !== undefined); console.log(t === r);", ["*true", "false"]),
    # What a callback reads keeps nothing: with the registry an engine lets go of both.
    ("function f(t) { const o = { p: 1 }; new FinalizationRegistry(() => console.log(o.p)).register(t, 1); return new WeakRef(o); } "
     "let t = {}; const r = f(t); await turn(); gc(); console.log(r.deref() !== undefined); console.log(typeof t); t = null; await turn(); gc();",
     ["*true", "object", "*1"]),
    # What a deref may not give, it keeps for nobody: neither for the next one, nor by its variable.
    ("const r = new WeakRef({}); await turn(); console.log(r.deref() !== undefined); console.log(r.deref() !== undefined);", ["*true", "*true"]),
    ("const r = new WeakRef({}); await turn(); const b = r.deref(); console.log(r.deref() !== undefined); console.log(b === r);", ["*true", "*false"]),
    # The choice goes on in a variable, in a property, and in what is done or not done.
    ("const r = new WeakRef({}); await turn(); gc(); const b = r.deref(); console.log(2); console.log(b);", ["2", "*undefined"]),
    ("const r = new WeakRef({}), o = {}; await turn(); gc(); o.b = r.deref(); console.log(2);", ["*2"]),
    ("const r = new WeakRef({}); await turn(); gc(); if (!r.deref()) console.log('gone'); console.log(2);", ["*gone", "2"]),
    ("const r = new WeakRef({}); function f() { if (r.deref()) return; console.log(1); } await turn(); gc(); f();", ["*1"]),
    # A callback comes when the engine likes. What it changes hangs on that, but not before the job's end.
    ("let n = 0; const g = new FinalizationRegistry(() => { n++; }); g.register({}, 1); console.log(n); await turn(); gc(); await turn(); "
     "console.log(n); console.log('end');", ["0", "*1", "end"]),
    # Whoever has the key finds the entry.
    ("const m = new WeakMap(), k = {}; m.set(k, 1); await turn(); gc(); console.log(m.get(k), m.has({}));", ["1 false"]),
    # Its token is in hand, so the target was there all the time.
    ("const g = new FinalizationRegistry(() => 1), t = {}; g.register(t, 'h', t); await turn(); gc(); await turn(); console.log(g.unregister(t));", ["true"]),
    # An unregistration after the callback, or as soon as the target may be gone.
    ("const g = new FinalizationRegistry((h) => console.log(h)), t = {}; g.register({}, 'h', t); await turn(); gc(); await turn(); "
     "console.log(g.unregister(t));", ["*h", "*false"]),
    # A choice comes to another agent with a message.
    ("agent('a', async () => { const r = new WeakRef({}); await turn(); gc(); postMessage(r.deref() === undefined, 'b'); }); "
     "agent('b', async () => { console.log(1); console.log(await message('a')); });", ["1", "*true"]),
    # And to one that was begun after it, by variables, or as it may not be begun.
    ("const r = new WeakRef({}); await turn(); const is = r.deref() !== undefined; agent('a', () => { console.log(is); console.log(1); });", ["*true", "1"]),
    ("const r = new WeakRef({}); await turn(); if (r.deref()) agent('a', () => console.log(1));", ["*1"]),
    ("agent('a', () => console.log(1)); function f() { return 1; } const r = new WeakRef({}); await turn(); if (r.deref()) f(); console.log(2);", ["*2", "1"]),
    # Each agent has its own object of a class, and its own use of it.
    ("class A {} class B {} const r = new WeakRef(A); agent('a', () => { new WeakRef(B); new WeakRef(A); }); await turn(); gc(); "
     "console.log(r.deref() !== undefined); console.log(typeof A);", ["true", "function"]),
    ("class A {} agent('a', async () => { const r = new WeakRef(A); await turn(); gc(); console.log(r.deref() !== undefined); console.log(typeof A); "
     "await turn(); gc(); console.log(r.deref() !== undefined); });", ["true", "function", "*true"]),
    # Of two timers one that was set earlier and is not longer comes first. A turn is one of 5 ms.
    ("setTimeout(() => console.log(1), 5); setTimeout(() => console.log(2), 5); await turn(); console.log(3); setTimeout(() => console.log(4), 9);", list("1234")),
    ("setTimeout(() => console.log(1), 1); setTimeout(() => console.log(0), 0);", ["1", "*0"]),
    ("setTimeout(() => console.log(2), 50); await turn(); console.log(1);", ["1", "*2"]),
    ("const t = setInterval(() => console.log(1), 10); setTimeout(() => { clearInterval(t); console.log(2); }, 25);", ["1", "*1", "2"]),
    ("setImmediate(() => console.log(1)); setTimeout(() => console.log(2), 0);", ["1", "*2"]),
    ("let n = 0; const t = setInterval(() => { console.log(1); if (n) clearInterval(t); n = 1; }, 5); const u = setInterval(() => { console.log(2); "
     "if (n) clearInterval(u); }, 5);", list("121")),
    # An interval is set again after its call, in a browser after what comes of that.
    ("let n = 0; const t = setInterval(() => { console.log(1); if (n++) clearInterval(t); else setTimeout(() => console.log(2), 5); }, 5);", list("121")),
    ("let n = 0; const t = setInterval(() => { console.log(1); if (n++) clearInterval(t); else queueMicrotask(() => setTimeout(() => console.log(2), 5)); }, 5);",
     ["1", "1", "*2"]),
    # Node calls with a timer of 5 ms what else has waited so long; and it counts an interval from its call's beginning.
    ("setTimeout(() => console.log(1), 5); setTimeout(() => { setTimeout(() => console.log(2), 1); setTimeout(() => console.log(3), 5); }, 4);", ["*1", "2", "*3"]),
    ("setTimeout(() => { setTimeout(() => console.log(2), 1); setTimeout(() => console.log(3), 5); }, 4);", ["2", "3"]),
    ("setTimeout(() => console.log(1), 9); await turn(); setTimeout(() => console.log(2), 1); setTimeout(() => console.log(3), 9);", ["2", "*1", "*3"]),
    ("let n = 0; const t = setInterval(() => { console.log(1); if (n++) clearInterval(t); else setTimeout(() => console.log(2), 3); }, 5);", ["1", "*2", "1"]),
    # In a chain of more than five timers one of 1 ms has 4 ms in a browser.
    ("setTimeout(() => { setTimeout(() => console.log(2), 3); console.log(1); }, 1);", ["1", "2"]),
    # What a timer changes and reads, it may change and read before, or later.
    ("let n = 0; setTimeout(() => { n = 1; }, 50); await turn(); console.log(n); console.log(2);", ["*0", "2"]),
    ("function f() { console.log(2); } setTimeout(() => f(), 50); console.log(0); await turn(); console.log(1);", ["0", "*1", "*2"]),
    ("const o = { p: 1 }, r = new WeakRef(o); setTimeout(() => console.log(o.p), 50); await turn(); gc(); console.log(r.deref() !== undefined);", ["*true", "*1"]),
    # Two that wait, of which neither calls a function of the script.
    ("const rest = (ms) => new Promise((go) => setTimeout(go, ms)); async function f() { await rest(20); console.log(2); } f(); console.log(0); await rest(10); "
     "console.log(1);", ["0", "*1", "*2"]),
    # A message may come at any time.
    ("agent('a', async () => { setTimeout(() => console.log(2), 1); console.log(await message('main')); }); postMessage(1, 'a');", ["1", "*2"]),
]


def judgements(count, left_out):
    words = kept_page.node()
    if words is None:
        left_out.append("which lines every engine prints, as there is no node with 64-bit WebAssembly memory")
        return

    def judged(paths):
        said = subprocess.run([*words, os.path.join(TOP, "tests", "page", "page_judging.mjs"), kept_page.SCRIPT, *paths], stdout=subprocess.PIPE, check=True).stdout
        return [json.loads(line) for line in said.splitlines()]

    with tempfile.TemporaryDirectory() as room:
        paths = [os.path.join(room, f"{number}.js") for number in range(len(JUDGED))]
        for path, (script, _) in zip(paths, JUDGED):
            with open(path, "w", encoding="utf-8") as file:
                file.write(script)
        for (script, wanted), got in zip(JUDGED, judged(paths)):
            count.expect(f"the lines of {script}", [f"{'*' if may else ''}{text}" for text, may in got], wanted)
    with open(os.path.join(LESSONS, "lines.json"), encoding="utf-8") as file:
        lessons = json.load(file)
    for (name, lesson), got in zip(lessons.items(), judged([os.path.join(LESSONS, f"{name}.js") for name in lessons])):
        count.expect(f"{name}: the lines", [text for text, _ in got], lesson["lines"])
        surely = {text for text, may in got if not may}
        count.expect(f"{name}: what node may leave out", surely & set(lesson.get("may", [])), set())


def surely(count):
    """Random scripts on node: what the page says that every engine prints. More are tried by hand: `page_surely.mjs COUNT SEED`."""
    words = kept_page.node()
    if words is None:
        return
    said = subprocess.run([*words, "--expose-gc", os.path.join(TOP, "tests", "page", "page_surely.mjs"), str(RANDOM), "1"], stdout=subprocess.PIPE, text=True, check=False).stdout
    lines = said.splitlines() or [""]
    print("\n".join(lines[:-1]))
    numbers = re.fullmatch(r"(\d+) passed, (\d+) failed", lines[-1])
    count.passed += int(numbers[1]) if numbers else 0
    if not numbers or numbers[2] != "0":
        count.faults.append(f"FAILED: random scripts: {lines[-1]}")


# In the browser


def pasted(tab, text, runs=False):
    """Types a text, and waits until it has run, or has a fault."""
    tab.value("at('fault').textContent = ''")
    return tab.value(f"typed({json.dumps(text)}, {json.dumps(runs)})")


def steps(count, tab):
    """The steps are the statements, without temporaries; each marks its letters, opens to its commands, and has its heap."""
    got = pasted(tab, SCRIPT)
    count.expect("a script", (got["fault"], got["state"].split(",")[0]), ("No fault.", "2 lines"))
    rows = tab.value("allRows()")
    statements = [line for line in SCRIPT.splitlines() if not line.startswith("await")]
    shown = [row[1].removeprefix("▸ ") for row in rows]
    count.expect("each statement has one step", [row for row in shown if row in statements], statements)
    count.expect("what stands between", [row for row in shown if row not in statements], [
        "KeptAlive takes", "turn ends", "nothing leads to object 2 (made as user)", "nothing leads to object 3", "turn ends", "main ends"])
    count.expect("what they answer", [row[2] for row in rows], [
        "data = WeakMap 1", "user = object 2", "", "ref = WeakRef 4", "object 2 (user)", "user holds no object", "now true 7",
        "KeptAlive lets go: object 2 (made as user)", "collected 2 values", "since row 8 (turn ends)", "since row 8 (turn ends)", "later undefined", "", ""])
    tab.value("at('to-first').click(); at('forward').click(); at('forward').click()")
    count.expect("the statement is marked", tab.value("step()"), "data.set(user, { visits: 1 });")
    count.expect("its heap has no temporary", tab.value("drawn().nodes"), ["var data ", "var user ", "n1 ", "n2 ", "n3 ", "e1_2 "])
    tab.value("at('rows').focus()")
    tab.press("Enter", 13)
    tab.press("ArrowDown", 40)
    count.expect("a step opens to its commands", tab.value("current()"), ["main", "new _1", "object 3"])
    count.expect("the place of a command", tab.value("step()"), "{ visits: 1 }")
    tab.press("ArrowUp", 38)
    tab.press("Enter", 13)
    tab.value("at('to-last').click()")
    count.expect("no statement is marked at the end", tab.value("step()"), None)


def printed(count, tab):
    """The lines, which of them every engine prints, and the plan with its marks."""
    tab.value("at('printed-tab').click()")
    lines = "[...document.querySelectorAll('.printed button')].map((it) => [it.querySelector('code').textContent, it.className])"
    count.expect("the lines", tab.value(lines), [["now true 7", "must"], ["later undefined", "may"]])
    tab.value("document.querySelectorAll('.printed button')[1].click()")
    count.expect("the statement of a line", tab.value("step()"), 'console.log("later", ref.deref());')
    tab.value("at('planned-tab').click()")
    marked = tab.value("document.querySelector('#planned mark').textContent")
    count.expect("its commands in the plan", (marked.startswith('["deref"'), '["say", "_1"]' in marked, '"collect"' in marked), (True, True, False))
    press = """(() => {
      const text = document.createTreeWalker(at("planned"), NodeFilter.SHOW_TEXT);
      while (text.nextNode()) {
        const found = text.currentNode.data.indexOf('["weakref"');
        if (found < 0) continue;
        getSelection().setPosition(text.currentNode, found + 3);
        at("planned").dispatchEvent(new MouseEvent("click", { bubbles: true }));
        return step();
      }
    })()"""
    count.expect("the statement of a command", tab.value(press), "const ref = new WeakRef(user);")
    tab.value("at('trace-tab').click()")


def faults(count, tab):
    """A script outside of the language: its line, a mark below its letters, and why. What was run last stays."""
    got = pasted(tab, 'let a = 1;\nlet b = import("x");\n')
    count.expect("where a fault stands", (got["fault"].startswith("Line 2: "), got["marked"], got["old"]), (True, 'import("x")', True))
    count.expect("marks below it", tab.value("at('fault').querySelector('pre').textContent"), 'let b = import("x");\n        ^^^^^^^^^^^')
    count.expect("the last run stays", tab.value("allRows().length"), 14)
    got = pasted(tab, "let a = ;")
    count.expect("a fault of the grammar", (got["fault"].startswith("Line 1: "), got["marked"]), (True, ";"))
    got = pasted(tab, '{"version": 1, "agents": []}')
    count.expect("a plan in JSON", (got["fault"].split(":")[0].endswith("S4"), tab.value("at('plan-title').textContent")), (True, "Plan"))
    for text, said, marked in MISTAKES:
        got = pasted(tab, text)
        count.expect(f"the mistake of {text}", (got["fault"], got["marked"]), (said, marked))


def writing(count, tab):
    """Undo past an example, a reload, the heading, and links."""
    pasted(tab, SCRIPT)
    page_browser.call(tab, "chosen", "examples", "gone")
    count.expect("the heading of an example", tab.value("at('about').textContent").startswith("examples / gone "), True)
    tab.value("at('plan').focus()")
    tab.call("Input.dispatchKeyEvent", type="rawKeyDown", key="z", code="KeyZ", windowsVirtualKeyCode=90, modifiers=2, commands=["undo"])
    count.expect("Control and Z bring back what was written", tab.value("at('plan').value"), SCRIPT)
    count.expect("no heading where the text was changed", tab.value("at('about').textContent").strip(), "")
    tab.value("at('fault').textContent = '', rest(200).then(settled)")
    page_browser.begin(tab, page_browser.PAGE)
    prepare(tab)
    count.expect("a reload", tab.value("at('plan').value"), SCRIPT)
    tab.value("at('link').click(), rest(300)")
    said, end = tab.value("[at('fault').textContent, location.hash]")
    count.expect("a link of a file", "It names a file of this machine" in said, True)
    page_browser.begin(tab, page_browser.PAGE + end)
    prepare(tab)
    count.expect("a link with a script", tab.value("[at('plan').value, at('about').textContent.trim()]"), [SCRIPT, "The script of a link."])
    pasted(tab, "console.log(1);")
    count.expect("no link to an older text", tab.value("location.href"), page_browser.PAGE)
    page_browser.begin(tab, page_browser.PAGE + "#script=" + "".join(f"%{byte:02X}" for byte in b"console.log(1 + 1);"))
    prepare(tab)
    count.expect("a script in an address", tab.value("document.querySelector('.printed code').textContent"), "2")
    long = "".join(f"// {number * 7919 % 10007} {number * 104729 % 99991}\n" for number in range(500))
    pasted(tab, long)
    tab.value("at('link').click(), rest(300)")
    count.expect("a long link", "letters: some mail" in tab.value("at('fault').textContent"), True)


def indents(count, tab):
    """A new line begins where the one before it does, and behind a bracket further in."""
    text = "if (true) {\n  let a = [1];"
    for place, wanted in ((11, "if (true) {\n  \n  let a = [1];"), (len(text), text + "\n  "), (0, "\n" + text)):
        pasted(tab, text)
        tab.value(f"at('plan').focus(), at('plan').setSelectionRange({place}, {place})")
        tab.call("Input.dispatchKeyEvent", type="keyDown", key="Enter", code="Enter", windowsVirtualKeyCode=13, text="\r")
        count.expect(f"a new line at {place}", tab.value("at('plan').value"), wanted)


def focus(count, tab):
    """The buttons to the ends keep the focus, so that the arrows go on."""
    pasted(tab, SCRIPT)
    for name, key, code, row in (("to-last", "ArrowLeft", 37, "13 of 14"), ("to-first", "ArrowRight", 39, "2 of 14")):
        tab.value(f"at('{name}').focus(); at('{name}').click()")
        tab.press(key, code)
        count.expect(f"the focus of {name}", tab.value("[document.activeElement.id, at('step').textContent]"), [name, row])


def picture(count, tab):
    """The picture in words and by keys: edges, variables, neighbours, and its size."""
    tab.value("at('to-first').click(); for (let row = 0; row < 3; row += 1) at('forward').click()")
    words = "document.querySelector('[data-key=\"%s\"]').getAttribute('aria-label')"
    count.expect("a WeakRef in words", tab.value(words % "n4"), "WeakRef 4 (ref), held by ref, sees weakly its target object 2 (user)")
    count.expect("an object in words", tab.value(words % "n2"), "object 2 (user), held by user, held by KeptAlive, seen weakly by WeakRef 4 (ref)")
    count.expect("an entry's value in words", tab.value(words % "n3"), "object 3, held by the entry of WeakMap 1 (data) under object 2 (user)")
    count.expect("the whole picture in words", tab.value("[...document.querySelectorAll('#heard li')].map((it) => it.textContent)"), [
        "variable data: holds WeakMap 1 (data)", "variable user: holds object 2 (user)", "variable ref: holds WeakRef 4 (ref)",
        "KeptAlive: until the job ends: holds object 2 (user)", "WeakMap 1 (data): has an entry under object 2 (user) with object 3",
        "object 2 (user): leads to nothing", "object 3: leads to nothing", "WeakRef 4 (ref): sees weakly its target object 2 (user)"])
    tab.value("document.querySelector('[data-key=\"var ref\"]').focus()")
    tab.press("Enter", 13)
    dim = "[...document.querySelectorAll('#heap .node:not(.dim)')].map((it) => it.dataset.key)"
    count.expect("what is beside the chosen value", tab.value(dim), ["var ref", "n2", "n4"])
    count.expect("the words of the chosen value", tab.value(PANEL), [
        "What leads to WeakRef 4 (ref):", "variable ref Cut", "What it leads to: sees weakly its target object 2 (user).", "No collection has said yet what keeps WeakRef 4 (ref)."])
    scale = "Number(document.querySelector('#heap svg').dataset.scale)"
    before = tab.value(scale)
    tab.press("+", 187)
    count.expect("a larger picture", tab.value(scale) > before * 1.2, True)
    tab.press("0", 48)
    fits = "(() => { const { clientWidth, scrollWidth, clientHeight, scrollHeight } = at('heap'); return clientWidth >= scrollWidth && clientHeight >= scrollHeight; })()"
    count.expect("a picture that fits", tab.value(fits), True)
    tab.press("Escape", 27)
    count.expect("nothing is chosen", tab.value(dim + ".length === document.querySelectorAll('#heap .node').length"), True)
    for name, side in (("split-text", "width"), ("split-rows", "height")):
        size = f"at('{'plan' if name == 'split-text' else 'rows'}').getBoundingClientRect().{side}"
        before = tab.value(f"at('{name}').focus(), {size}")
        tab.press("ArrowRight", 39)
        count.expect(f"{name} by an arrow", tab.value(size) > before + 10, True)
        tab.value(f"at('{name}').dispatchEvent(new MouseEvent('dblclick'))")
        count.expect(f"{name} put back", tab.value(size), before)
    tab.value("at('enlarge').click(), rest(50)")
    count.expect("the picture alone", tab.value("[at('heap').clientHeight > innerHeight * 0.7, at('rows').clientHeight]"), [True, 0])
    tab.value("at('enlarge').click()")


def cut(tab, number):
    """Presses a button that cuts, and waits for what is said then."""
    return tab.value(f"document.querySelectorAll('#edges button')[{number}].click(), (async () => {{"
                     "do await rest(5); while (at('cut').textContent === '' || at('cut').textContent === 'running ..');"
                     "return [...at('cut').children].map((it) => it.textContent); })()")


def row_of(tab, text):
    """Goes to the first row whose words begin so."""
    tab.value(f"at('to-first').click(); while (!current()[1].startsWith({json.dumps(text)})) at('forward').click()")


def leading(count, tab):
    """All that leads to a value of a script, and what goes at the next collection if one of that is cut. The way that is cut
    is one of two, so the value stays by the other."""
    pasted(tab, LEAK)
    row_of(tab, "turn ends")
    count.expect("what leads to a value", tab.value(f"press(2), {PANEL}"), [
        "What leads to object 2 (row):", "variable last Cut", "property row of object 1 (table) Cut", "weakly: target of WeakRef 3 (ref)",
        "No collection has said yet what keeps object 2 (row)."])
    count.expect("a cut of a variable", cut(tab, 0), [
        "Without variable last after row 5 (turn ends), the next collection empties no more than it does now (0).",
        "object 2 (row) stays: The property row of object 1 (table) holds object 2."])
    count.expect("a cut of a property", cut(tab, 1), [
        "Without property row of object 1 (table) after row 5 (turn ends), the next collection empties no more than it does now (0).",
        "object 2 (made as row) stays: The variable last holds object 2 (made as row)."])
    count.expect("what is written stays", tab.value("[at('plan').value, at('step').textContent, at('answer').classList.contains('old')]"), [LEAK, "5 of 10", False])
    tab.value("at('edges').querySelector('button').focus(), at('edges').querySelector('button').click(), rest(300)")
    count.expect("the focus of a cut", tab.value("document.activeElement.getAttribute('aria-label')"), "Cut variable last")
    tab.press("Escape", 27)
    count.expect("back to the value", tab.value("document.activeElement.dataset.key"), "n2")
    tab.press("ArrowDown", 40, modifiers=1)
    count.expect("from the value to what is said of it", tab.value("document.activeElement.getAttribute('aria-label')"), "Cut variable last")
    tab.value("at('forward').click()")
    count.expect("a cut is said of its row alone", tab.value("at('cut').textContent"), "")


def leading_of_plan(count, tab):
    """All that leads to a value of a plan, weak and strong; and a cut after which the value goes."""
    pasted(tab, EDGES)
    row_of(tab, "collect")
    count.expect("all that leads to a value", tab.value(f"press(1), {PANEL}")[:11], [
        "What leads to object 1 (o):", "variable o Cut", "variable x Cut", "held value of registration 2 of FinalizationRegistry 7 (r)",
        "property p of object 3 (b) Cut", "entry of WeakMap 4 (m) under object 2 (made as k), as long as both are reached",
        "weakly: key of WeakMap 4 (m)", "weakly: target of WeakRef 5 (w)", "weakly: member of WeakSet 6 (s)",
        "weakly: target of registration 1 of FinalizationRegistry 7 (r)", "weakly: token of registration 1 of FinalizationRegistry 7 (r)"])
    count.expect("what leads to a FinalizationRegistry", tab.value(f"press(7), {PANEL}")[:3], [
        "What leads to FinalizationRegistry 7 (r):", "variable r Cut", "it is a FinalizationRegistry, and none is ever emptied"])
    inside = "document.querySelector('[data-identity=\"7\"]').getBoundingClientRect().bottom <= at('heap').getBoundingClientRect().bottom"
    count.expect("the chosen value is in view", tab.value(f"rest(100).then(() => {inside})"), True)
    # A cut after the only collection: one after the last job shows what goes.
    tab.value("press(3)")
    count.expect("a cut after the last collection", cut(tab, 0), [
        "Without variable b after row 20 (collect), a collection after the last job empties also object 3 (made as b).",
        "Then get y b p is refused: TypeError: not an object."])
    tab.value("at('to-last').click()")
    count.expect("a cut at the end", cut(tab, 0), [
        "Without variable b after row 24 (agent ends), a collection after the last job empties no more than it does now (0).",
        "object 3 (made as b) stays: The property q of object 1 (o) holds object 3 (made as b)."])


def helps(count, tab):
    """Help for the word at the caret, by the keys alone: of plans the commands and keys, of scripts the host's calls."""
    plan = '{"version": 1, "agents": [{"name": "a", "callbacks": {}, "jobs": [{"run": [["wea"], ["set", "o"], ["try", "e", "der"]]}]}]}'

    def caret(text, after):
        pasted(tab, text)
        place = text.index(after) + len(after)
        tab.value(f"at('plan').focus(), at('plan').setSelectionRange({place}, {place}), at('plan').dispatchEvent(new Event('keyup'))")
        return tab.value(OFFERED)

    count.expect("commands that begin so", caret(plan, '"wea'), ["weakmap X", "weakref X Y", "weakset X"])
    tab.press(" ", 32, modifiers=2)
    tab.press("ArrowDown", 40)
    chosen = "document.getElementById(at('offers').getAttribute('aria-activedescendant')).querySelector('code').textContent"
    count.expect("the keys go through them", tab.value(f"[document.activeElement.id, {chosen}]"), ["offers", "weakref X Y"])
    tab.press("Enter", 13)
    count.expect("a word is written", tab.value("[document.activeElement.id, at('plan').value]"), ["plan", plan.replace("wea", "weakref")])
    count.expect("what is heard", tab.value("at('heard-word').textContent"), "weakref X Y: X gets a new WeakRef to Y, which is kept alive to the end of the job.")
    tab.call("Input.dispatchKeyEvent", type="rawKeyDown", key="z", code="KeyZ", windowsVirtualKeyCode=90, modifiers=2, commands=["undo"])
    count.expect("Control and Z take it back", tab.value("at('plan').value"), plan)
    count.expect("the command of an operand", caret(plan, '"set", "o'), ["set O K Y"])
    count.expect("the variable of try, and a command behind it", [caret(plan, end) for end in ('"try", "e', '"der')], [["try X COMMAND"], ["deref X W"]])
    count.expect("keys of a plan", caret(plan, '"jo'), ['"jobs"'])
    count.expect("nothing without a letter", caret("let a = 1;\n", "\n"), [])
    tab.press(" ", 32, modifiers=2)
    count.expect("all calls, if they are asked for", len(tab.value(OFFERED)) > 20, True)
    tab.press("Escape", 27)
    count.expect("Escape goes back", tab.value("document.activeElement.id"), "plan")
    count.expect("a call of the host", caret("let a = {}; await tur", "tur"), ["await turn()"])
    count.expect("its meaning", tab.value("at('heard-word').textContent"), "await turn(): ends the job; what follows is a new job")
    names = ["gc", "collectLater", "agent", "postMessage", "message", "setTimeout", "deref", "register", "compareExchange"]
    count.expect("each call is known", [caret(name, name) != [] for name in names], [True] * len(names))


def many(count, tab):
    """Labels with 24 and 60 values, and what is drawn of more than can be read."""
    for what, script, values in (("24 values", TABLE, 24), ("60 values", SIXTY, 60)):
        pasted(tab, script)
        tab.value("at('to-last').click()")
        for size in ((1280, 800), (1920, 1080)):
            page_looks.sized(tab, *size)
            got = tab.value("covered()")
            count.expect(f"{what}", tab.value("document.querySelectorAll('#heap .thing').length"), values)
            count.expect(f"labels of {what} that lie on something, of {got['labels']}", (got["labels"] > 9, got["covered"]), (True, []))
    pasted(tab, MANY)
    tab.value("at('to-last').click()")
    said = "at('heap').querySelector('p').textContent"
    count.expect("why not all is drawn", tab.value(said).startswith("There are 501 values: more than 200"), True)
    count.expect("what is drawn", tab.value("[drawn().nodes.length > 5, drawn().nodes.length <= 42]"), [True, True])
    tab.value("at('centre').value = 501; at('centre').dispatchEvent(new Event('change'))")
    count.expect("another one", "surrounds object 501" in tab.value(said), True)


def sizes(count, tab):
    """Nothing stands outside of the window; large parts for fingers where it is narrow, and three columns where it is wide."""
    pasted(tab, SCRIPT)
    for size in ((390, 844), (1280, 800), (1920, 1080)):
        page_looks.sized(tab, *size)
        count.expect(f"the width of {size[0]}", tab.value("document.documentElement.scrollWidth <= innerWidth"), True)
        parts = "['header', '.editor', '.walk', '.seen', '#answer', 'footer'].map((it) => document.querySelector(it).getBoundingClientRect())"
        meets = f"(([head, editor, rows, heap, right, foot]) => head.bottom > editor.top || head.bottom > right.top || [editor, rows, heap, right].some(({{ bottom }}) => bottom > foot.top))({parts})"
        count.expect(f"parts on each other at {size[0]}", tab.value(meets), False)
    place = "['plan', 'rows', 'heap'].map((id) => at(id).getBoundingClientRect()).map(({ left, right }) => [left, right])"
    (_, first), (second, end), (third, _) = tab.value(place)
    count.expect("three columns", first < second and end < third, True)
    page_looks.sized(tab, 390, 844)
    small = "[...document.querySelectorAll('main button, main select')].filter((it) => it.getClientRects().length > 0 && it.getBoundingClientRect().height < 44).map((it) => it.id)"
    count.expect("buttons for fingers", tab.value(small), [])
    count.expect("the editor's letters", tab.value("getComputedStyle(at('plan')).fontSize"), "16px")
    page_looks.sized(tab, 1280, 800)


def contrasts(count, tab):
    """With what is no longer reached, collected, chosen and printed; with a fault and an old run; and the menu."""
    pasted(tab, SCRIPT)
    page_looks.contrasts(count, tab, "what is no longer reached")
    tab.value("at('to-collection').click()")
    page_looks.contrasts(count, tab, "what is collected")
    tab.value("press(4)")
    page_looks.contrasts(count, tab, "what steps back")
    for name in ("printed", "planned"):
        tab.value(f"at('{name}-tab').click()")
        page_looks.contrasts(count, tab, name)
    tab.value("at('trace-tab').click()")
    pasted(tab, "let a = ;")
    page_looks.contrasts(count, tab, "a fault")
    pasted(tab, page_browser.WARNED)
    page_looks.contrasts(count, tab, "warnings")
    tab.value("at('open').click()")
    page_looks.contrasts(count, tab, "the menu")
    tab.press("Escape", 27)
    page_browser.call(tab, "chosen", "examples", "queue")
    tab.value("at('report-tab').click()")
    page_looks.contrasts(count, tab, "a report")
    tab.value("at('trace-tab').click()")


def time_of(count, tab):
    """From the press of the button to the steps of a script of ten lines; the best of five."""
    took = []
    for number in range(5):
        text = json.dumps(f"{SCRIPT}// {number}")
        run = f"at('plan').value = {text}, at('fault').textContent = '', begun = performance.now(), at('run').click(), settled().then(() => performance.now() - begun)"
        took.append(tab.value(f"globalThis.begun = 0, {run}"))
    print(f"a script of ten lines in the page: {min(took):.0f} ms")
    count.expect("the time of a script", min(took) < 1000, True)


def without_engine(count, tab):
    """A browser without 64-bit memory, as the engine's thread sees it: that is said once."""
    narrow = "globalThis.Blob = class extends Blob { constructor(parts, how) { super(['WebAssembly.validate = () => false;', ...parts], how); } }"
    script = tab.call("Page.addScriptToEvaluateOnNewDocument", source=narrow)["identifier"]
    page_browser.begin(tab, page_browser.PAGE)
    tab.call("Page.removeScriptToEvaluateOnNewDocument", identifier=script)
    said = tab.value("rest(300).then(() => [at('fault').textContent, at('state').textContent, at('rows').textContent])")
    wanted = "This browser has no 64-bit WebAssembly memory, which the engine needs. Chromium 156 and Firefox 153 have it."
    count.expect("no engine", said, [wanted, "It was not run.", ""])


def first(count, tab):
    """The page opens with a lesson, and shows its steps."""
    count.expect("the first page", tab.value("[at('about').textContent.split(' ')[0], at('trace').hidden, allRows().length > 5]"), ["lessons", False, True])


def prepare(tab):
    tab.value(page_trace.TOOLS)
    tab.value(page_looks.TOOLS)


def pictures(tab, folder):
    os.makedirs(folder, exist_ok=True)
    for name, script in (("script", SCRIPT), ("24", TABLE), ("60", SIXTY)):
        page_looks.sized(tab, 1280, 800)
        pasted(tab, script)
        for width, height in ((390, 844), (1280, 800), (1920, 1080)):
            for is_dark in (False, True):
                tab.look(width, height, is_dark, os.path.join(folder, f"{name}-{width}-{'dark' if is_dark else 'light'}.png"))


def in_browser(count, path, folder):
    with browser.Browser(path) as tab:
        page_looks.sized(tab, 1280, 800)
        page_browser.begin(tab, page_browser.PAGE)
        prepare(tab)
        for part in (first, steps, printed, faults, writing, indents, focus, picture, leading, leading_of_plan, helps, many, sizes, contrasts, time_of, without_engine):
            part(count, tab)
        thrown = [event["params"]["exceptionDetails"] for event in tab.events if event["method"] == "Runtime.exceptionThrown"]
        count.expect("what the page threw", thrown, [])
        if folder:
            page_browser.begin(tab, page_browser.PAGE)
            pictures(tab, folder)


def in_firefox(count, path):
    """The parts that ask nothing of a browser's own protocol."""
    tools = [page_browser.TOOLS, page_trace.TOOLS, page_looks.TOOLS]
    with firefox.Firefox(path, tools) as tab:
        tab.sized(1280, 900)
        page_browser.begin(tab, page_browser.PAGE)
        prepare(tab)
        for part in (first, steps, printed, faults, focus, picture, leading, leading_of_plan):
            part(count, tab)


def only_firefox():
    count, path = running.Count(), firefox.found()
    if path is None:
        print("Left out: all, as there is no firefox.")
    else:
        in_firefox(count, path)
    count.end()


def main():
    parser = argparse.ArgumentParser(description=__doc__, formatter_class=argparse.RawDescriptionHelpFormatter)
    parser.add_argument("--pictures", metavar="FOLDER")
    parser.add_argument("--firefox", action="store_true")
    given = parser.parse_args()
    if given.firefox:
        return only_firefox()
    count, left_out = running.Count(), []
    judgements(count, left_out)
    surely(count)
    path = browser.found()
    if path is None:
        left_out.append("the page in a browser, as there is no chromium")
    else:
        in_browser(count, path, given.pictures)
    for what in left_out:
        print(f"Left out: {what}.")
    count.end()


if __name__ == "__main__":
    main()
