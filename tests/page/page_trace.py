"""The trace in the kept page in a browser, beside trace_model.py: its rows, with the ledger's and without, steps by buttons, keys
and the pointer, the picture after each collection, and what keeps a value."""

import glob
import itertools
import json
import os

import page_rows
import trace_check
from page_heap import edges, nodes

TOP = os.path.dirname(os.path.dirname(os.path.dirname(os.path.abspath(__file__))))
# Examples of which the ledger's rows are looked at too; those whose messages nobody takes are besides.
WITH_LEDGER = ["gone", "worker", "two_buffers", "skipped"]

# What the tests call in the page, beside the tools of page_browser.py.
TOOLS = """
const current = () => {
  const row = document.querySelector("#rows [aria-selected=true]");
  return row && [...row.querySelectorAll("span")].map((it) => it.textContent);
};
// Its command, as it is marked in the plan.
const step = () => document.querySelector("mark.step")?.textContent ?? null;
// All rows, read by going from the first to the last.
const allRows = () => {
  at("to-first").click();
  const found = [current()];
  while (at("forward").ariaDisabled !== "true") {
    at("forward").click();
    found.push(current());
  }
  return found;
};
const has = (node, name) => node.classList.contains(name);
// The nodes and edges that are drawn.
const drawn = () => ({
  nodes: [...document.querySelectorAll("#heap .node")].map((it) => [it.dataset.key, has(it, "gone") ? "gone" : has(it, "lost") ? "lost" : ""].join(" ")),
  edges: [...document.querySelectorAll("#heap .edge[data-from]")].map((it) => [it.dataset.from, it.dataset.to, has(it, "weak") ? "weak" : "strong"].join(" ")),
  kinds: Object.fromEntries([...document.querySelectorAll("#heap .thing")].map((it) => [it.dataset.identity, it.querySelector(".kind").textContent])),
});
// What is drawn after each collection.
const collections = () => {
  at("to-first").click();
  const found = [];
  let row = -1;
  for (at("to-collection").click(); at("to-collection").ariaDisabled !== "true"; at("to-collection").click()) {
    const next = Number(at("step").textContent.split(" ")[0]);
    if (next <= row) break;
    row = next;
    found.push(drawn());
  }
  return found;
};
const press = (identity) => {
  document.querySelector(`[data-identity="${identity}"]`).dispatchEvent(new MouseEvent("click", { bubbles: true }));
  return { said: [...document.querySelectorAll("#why p, #why li")].map((it) => it.textContent),
    lit: [...document.querySelectorAll("#heap .node.lit")].map((it) => it.dataset.key) };
};
"""


def picture(got):
    """A drawn picture; an edge may be drawn twice, for two things that it stands for."""
    return sorted(got["nodes"]), sorted({*got["edges"]}), got["kinds"]


def wanted(heap):
    """The same of a heap: what is emptied is gone, and what is no longer reached is lost."""
    states = {f"n{one}": "" if one in heap.depths else "lost" for one in heap.there} | {f"n{one}": "gone" for one in heap.emptied}
    found = {f"{start} {end} {'weak' if kind == 'weak' else 'strong'}" for start, end, kind, _ in edges(heap)}
    kinds = {str(one): heap.kinds[one] for one in heap.there}
    return sorted(f"{key} {states.get(key, '')}" for key, *_ in nodes(heap)), sorted(found), kinds


def settled(rows_there):
    """The rows with tickets that were given up at once, and the blocks that went by it, in one order: it is free."""
    kinds = [event.split(" ")[-1] if name == "-" else None for name, event, _ in rows_there]
    for kind, run in itertools.groupby(zip(kinds, rows_there), lambda pair: pair[0]):
        found = [row for _, row in run]
        yield from sorted(found) if kind in ("spent", "released") else found


def examples(count, browser, call):
    """Each example's rows, and its pictures after collections."""
    for path in sorted(glob.glob(os.path.join(TOP, "examples", "*.json"))):
        name = os.path.basename(path).removesuffix(".json")
        call(browser, "chosen", "examples", name)
        with open(path, "rb") as file:
            data = file.read()
        turns, _ = trace_check.model(data)
        count.expect(f"{name}: the rows", call(browser, "allRows"), page_rows.rows_of(data, False))
        if len(turns[-1].ledger_events) > 0 or name in WITH_LEDGER:
            browser.value("at('ledger').click()")
            count.expect(f"{name}: the rows with the ledger's", [*settled(call(browser, "allRows"))], [*settled(page_rows.rows_of(data, True))])
            browser.value("at('ledger').click()")
        heaps = [turn.heap for turn in turns if turn.heap]
        got = call(browser, "collections")
        count.expect(f"{name}: the collections", len(got), len(heaps))
        for one, heap in zip(got, heaps):
            there = {identity: kind for identity, kind in one["kinds"].items() if int(identity) not in heap.emptied}
            count.expect(f"{name}: the picture", picture({**one, "kinds": there}), wanted(heap))


def steps(count, browser, call):
    """The current row by keys, by the pointer and by buttons; it begins before the first collection."""
    call(browser, "chosen", "examples", "gone")
    where = "at('step').textContent"
    count.expect("the first row that is shown", browser.value(where), "7 of 13")
    browser.value("at('rows').focus()")
    for key, code, row in (("ArrowDown", 40, 8), ("ArrowRight", 39, 9), ("ArrowUp", 38, 8), ("ArrowLeft", 37, 7), ("End", 35, 13), ("Home", 36, 1)):
        browser.press(key, code)
        count.expect(f"{key}", browser.value(where), f"{row} of 13")
    browser.value("document.querySelector('#rows [data-row=\"2\"]').click()")
    count.expect("a row that is pressed", browser.value("current()"), ["a", "weakref w a", "WeakRef 2 (w)"])
    count.expect("its command", browser.value("step()"), '["weakref", "w", "a"]')
    browser.value("at('to-last').click(), at('back').click(), at('back').click(), at('back').click()")
    count.expect("that of another row", browser.value("step()"), '["deref", "b", "w"]')
    browser.value("at('forward').click()")
    count.expect("that of none", browser.value("at('forward').click(), step()"), None)
    count.expect("what fades is gone at the next event", browser.value(
        "at('to-collection').click(), [drawn(), at('forward').click(), drawn(), at('forward').click(), drawn()].filter(Boolean).map(({ nodes }) => nodes)"),
        [["var w ", "n1 gone", "n2 "], ["var w ", "n1 gone", "n2 "], ["var w ", "n2 "]])
    browser.value("at('back').click()")
    count.expect("the command of a note", browser.value("[step(), document.querySelector('.touched').dataset.key]"), ['["collect"]', "n1"])
    browser.value("at('ledger').click()")
    count.expect("the ledger's rows are asked for", browser.value("[at('step').textContent, at('rows').textContent.includes('a ended')]"), ["9 of 14", True])
    browser.value("at('to-last').click(), at('ledger').click()")
    count.expect("the row before one of the ledger", browser.value("[at('step').textContent, at('rows').textContent.includes('a ended')]"), ["13 of 13", False])


def reasons(count, browser, call):
    """What keeps a value is said and stands out: of an entry's value the WeakMap and the key before it."""
    call(browser, "chosen", "examples", "ephemerons")
    browser.value("at('to-collection').click()")
    count.expect("what keeps an entry's value", browser.value("press(2)"), {
        "said": ["Why object 2 (made as k2) stayed at the last collection (row 10):", "The variable m holds WeakMap 4.",
                 "The variable k1 holds object 1.", "WeakMap 4 (m) has object 2 (made as k2) under object 1 (k1): both are kept."],
        "lit": ["var k1", "var m", "n1", "n2", "n4", "e4_1"],
    })
    count.expect("a second press", browser.value("press(2)"), {"said": [], "lit": []})
    browser.value("document.querySelector('[data-identity=\"4\"]').focus()")
    browser.press("Enter", 13)
    browser.press("ArrowRight", 39)
    said = "[at('why').textContent, document.activeElement.dataset.identity, at('step').textContent]"
    told = "Why WeakMap 4 (m) stayed at the last collection (row 10):The variable m holds WeakMap 4."
    count.expect("Enter, and an arrow", browser.value(said), [told, "4", "11 of 28"])
    browser.press("Escape", 27)
    count.expect("Escape", browser.value("at('why').textContent"), "")
    browser.value("at('to-first').click(); at('forward').click()")
    count.expect("before a collection", browser.value("press(1).said"), ["No collection has said yet what keeps object 1 (k1)."])
    browser.value("at('to-last').click()")
    count.expect("what was emptied", browser.value("[...document.querySelectorAll('#why p')].map((it) => it.textContent)"), ["object 1 (made as k1) was emptied."])


def agents(count, browser, call):
    """The heap is that of the row's agent, or of the one that is chosen."""
    call(browser, "chosen", "examples", "worker")
    browser.value("at('to-last').click()")
    count.expect("the row's agent", browser.value("at('plain').querySelector('b').textContent"), "Heap of worker.")
    browser.value("at('whose').selectedIndex = 1; at('whose').dispatchEvent(new Event('change'))")
    got = browser.value("[at('plain').textContent, drawn().nodes]")
    count.expect("a chosen agent", got, ['Heap of main. Other variables: answer = "done", x = 0.', ["var b ", "n1 "]])


def large(count, browser, call):
    """A heap of more values than are drawn, and a long trace within its time."""
    run = [["new", "x"], ["set", "o", "p", "x"]]
    plan = {"version": 1, "agents": [{"name": "a", "callbacks": {}, "jobs": [{"run": [["new", "o"], *run * 300, ["collect"]]}, *[{"run": run * 2500}] * 6]}]}
    begun = f"globalThis.begun = performance.now(), typed({json.dumps(json.dumps(plan))}, true)"
    took = browser.value(f"{begun}.then(() => performance.now() - begun)")
    print(f"the trace of 30,600 commands in the page: {took:.0f} ms")
    count.expect("the time of a long trace", took < 10000, True)
    said = "There are 301 values: more than 200 can't be read in one picture. Here is what surrounds object 1 (o). A press on another value goes there."
    count.expect("too many", browser.value("at('heap').querySelector('p').textContent"), said)
    count.expect("what is around one", browser.value("drawn().nodes"), ["var o ", "var x ", "n1 ", "n301 "])
    # The collection is row 603, with a row for each of the first hundred.
    browser.value("at('rows').scrollTop = 22 * 700, rest(100)")
    browser.value("document.querySelector('#rows [data-row=\"703\"]').click()")
    count.expect("so many of what was emptied have rows", browser.value("current()"), ["a", "emptied 199 more", ""])
    browser.value("at('forward').click()")
    count.expect("few again", browser.value("drawn().nodes"), ["var o ", "var x ", "n1 ", "n301 "])


def stopped(count, browser):
    """A trace that takes long is stopped, and the report stays."""
    keep = [["new", "o"], *[command for key in range(3000) for command in (["new", "x"], ["set", "o", f"k{key}", "x"])]]
    plan = {"version": 1, "agents": [{"name": "a", "callbacks": {}, "jobs": [{"run": keep}, {"run": [["collect"]] * 3000}]}]}
    long = json.dumps(json.dumps(plan))
    browser.value(f"at('report').textContent = '', typed({long}, true), rest(5)")
    browser.value("(async () => { while (at('report').textContent === '' || at('stop').hidden) await rest(5); at('stop').click(); })()")
    got = browser.value("settled()")
    lines = got["report"].split("\n")
    count.expect("a trace that is stopped", (got["state"], lines[:2], len(lines)), ("Stopped.", ["agent a", "emptied 0"], 3006))
    count.expect("no rows", browser.value("[at('step').textContent, current()]"), ["", None])


def try_all(count, browser, call):
    """Counts all of this, in a page that is open; the report is shown again at the end."""
    browser.value(TOOLS)
    browser.value("at('trace-tab').click(), settled()")
    for part in (steps, reasons, agents, examples, large):
        part(count, browser, call)
    stopped(count, browser)
    call(browser, "chosen", "examples", "gone")
    count.expect("the step's command", browser.value("step()"), '["let", "a", null]')
    browser.value("at('report-tab').focus(); at('report-tab').click()")
    count.expect("no step beside the report", browser.value("step()"), None)
    browser.press("ArrowRight", 39)
    shown = browser.value("[at('report').hidden, at('trace').hidden]")
    count.expect("the tabs by keys", shown, [True, False])
    count.expect("the step's command again", browser.value("step()"), '["let", "a", null]')
    browser.press("ArrowLeft", 37)
    count.expect("and back", browser.value("[at('report').hidden, at('trace').hidden]"), [False, True])
