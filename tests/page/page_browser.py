"""The kept page in a browser: what tests/page/kept_page.py tries there."""

import base64
import glob
import json
import os
import shutil
import tempfile
import zlib

import page_trace
from browser import Browser

TOP = os.path.dirname(os.path.dirname(os.path.dirname(os.path.abspath(__file__))))
PAGE = "file://" + os.path.join(TOP, "play", "index.html")

# What the tests call in the page.
TOOLS = """
const at = (id) => document.getElementById(id);
const rest = (milliseconds) => new Promise((go) => setTimeout(go, milliseconds));
// Waits until no run is under way and the plan has been checked.
const settled = async () => {
  do await rest(5); while (!at("stop").hidden || at("fault").textContent === "");
  return { report: at("report").textContent, state: at("state").textContent, fault: at("fault").textContent,
    marked: document.querySelector("mark")?.textContent ?? null, old: at("answer").classList.contains("old") };
};
// Chooses a plan of the menu.
const chosen = (group, name) => {
  at("fault").textContent = "";
  const parts = [...document.querySelectorAll("#menu section")];
  const part = parts.find((it) => it.querySelector("h3").textContent === group);
  [...part.querySelectorAll("button")].find((it) => it.querySelector("b").textContent === name).click();
  return settled();
};
// Shows the trace at the row after the one at which it begins, and what keeps a value.
const traced = async (identity) => {
  at("trace-tab").click();
  await settled();
  at("forward").click();
  document.querySelector(`[data-identity="${identity}"]`).dispatchEvent(new MouseEvent("click", { bubbles: true }));
};
// What is said of a plan with warnings, and the letters that are marked for them.
const warned = () => ({
  told: at("fault").firstChild.textContent, list: [...at("fault").querySelectorAll("li")].map((it) => it.textContent),
  marks: [...document.querySelectorAll("#marks .warned")].map((it) => it.textContent), canVisit: !at("visit").hidden,
});
const selected = () => at("plan").value.slice(at("plan").selectionStart, at("plan").selectionEnd);
// Types a plan, and runs it if that is asked for.
const typed = (text, runs) => {
  at("fault").textContent = "";
  at("plan").value = text;
  at("plan").dispatchEvent(new Event("input"));
  if (runs) at("run").click();
  return settled();
};
"""

# Plans with a fault, of which the page marks the letters between the signs. The first command of the first job stands for
# the plan, where a text begins with a bracket.
MARKED = [
    '«{»"version": 1,', '{"version": 1, "agents": [«}»', '{"version": «1»x}', '{"version": «n»ul', '{"version": 1, "agents": [{"name": "«\\»ud800"',
    '{"version": 1, "agents": [«é»]}',
    '{"version": 1, "agents": [], «"agnets"»: []}', '«{}»', '{"version": «"1"», "agents": []}',
    '{"version": 1, "agents": [«{"name": "a", "jobs": []}»]}',
    '{"version": 1, "agents": [{"name": "a", "callbacks": {}, "jobs": [{"run": [«[1]»]}]}]}',
    '{"version": «3», "agents": []}', '{"version": 1, "agents": «[]»}',
    '{"version": 1, "agents": [{"name": «"9"», "callbacks": {}, "jobs": []}]}',
    '{"version": 1, "agents": [{"name": "a", "callbacks": {«"c-b"»: []}, "jobs": []}]}',
    '{"version": 1, "agents": [{"name": "a", "callbacks": {"d": [], "c": [["collect"]], "b": [["new", "x"], ["nwe"]]}, "jobs": []}]}'
    .replace('["nwe"]', '«["nwe"]»'),
    '{"version": 1, "agents": [{"name": "a", "callbacks": {}, "jobs": [{"on": «["c", "x"]», "run": []}]}]}',
    '[«["new", "9lives"]»]', '[["new", "x"], «["post", "c", "x"]»]', '[«["let", "x", 1.5]»]', '[«["buffer", "x", -1]»]',
]


# The warnings of examples that have some, worked out by hand.
WARNED_EXAMPLES = {"agents": 2, "registers": 4, "symbols": 1, "unregister": 1, "worker": 1}
# A plan with warnings in four places, and what the page says of it, in the order of its lines.
WARNED = """{"version": 1,
 "agents": [{"name": "a", "callbacks": {"c": [["say", "hedl"]]},
  "jobs": [{"run": [["new", "x"],
   ["say", "y"], ["registry", "r", "c"], ["register", "r", "z", "z"],
   ["let", "y", 1]]}]}]}"""
WARNINGS = [
    "Line 2: nothing assigns hedl, so it is undefined; let assigns a text", "Line 3: nothing reads x",
    "Line 4: y is read before anything assigns it, so it is undefined", "Line 4: nothing assigns z, so it is undefined; let assigns a text",
    "Line 4: the held value is the target z, so this is refused",
]
WARNED_PLACES = ['["say", "hedl"]', '["new", "x"]', '["say", "y"]', '["register", "r", "z", "z"]']
# The rows of warnings.json that are tried in the page.
WARNED_ROWS = [
    "a text in the place of a variable", "held values that are the targets, in jobs and callbacks", "callbacks come by rising bytes of their names",
    "two agents with a variable of one name", "the last of two members of one name counts, and escapes are letters", "let x null alone",
]


def whole(text):
    """The plan for which a text stands."""
    if not text.startswith("["):
        return text
    return '{"version": 1, "agents": [{"name": "a", "callbacks": {}, "jobs": [{"run": %s}]}]}' % text


def begin(browser, address):
    """Opens the page, and waits for its first report."""
    browser.open(address)
    browser.value(TOOLS)
    browser.value("settled()")


def call(browser, name, *words):
    return browser.value(f"{name}({', '.join(map(json.dumps, words))})")


def examples(count, browser):
    for path in sorted(glob.glob(os.path.join(TOP, "examples", "*.json"))):
        with open(path.removesuffix(".json") + ".report", encoding="utf-8") as file:
            report = file.read()
        name = os.path.basename(path).removesuffix(".json")
        got = call(browser, "chosen", "examples", name)
        told, warnings = browser.value("[at('fault').firstChild.textContent, at('fault').querySelectorAll('li').length]")
        count.expect(f"{name} in the page", (got["report"], got["old"], warnings), (report, False, WARNED_EXAMPLES.get(name, 0)))
        count.expect(f"what is said of {name}", (told.startswith("No fault."), told == "No fault."), (True, warnings == 0))


def traces(count, browser):
    page_trace.try_all(count, browser, call)


def marks(count, browser):
    for text in MARKED:
        before, _, marked = whole(text).partition("«")
        marked, _, after = marked.partition("»")
        got = call(browser, "typed", before + marked + after, False)
        count.expect(f"the mark of {text}", got["marked"], marked)
        count.expect(f"an older report beside {text}", got["old"], True)


def warnings(count, browser):
    """What is said of a plan with warnings, its marks, and the way to them by keys and by a press; it runs all the same."""
    got = call(browser, "typed", WARNED, True)
    count.expect("a plan with warnings runs", (got["report"].split("\n")[1], got["old"]), ("say undefined", False))
    wanted = {"told": "No fault. 5 warnings:", "list": WARNINGS, "marks": WARNED_PLACES, "canVisit": True}
    count.expect("what is said of warnings", browser.value("warned()"), wanted)
    count.expect("a plan with warnings is valid", browser.value("at('plan').getAttribute('aria-invalid')"), "false")
    browser.value("at('plan').setSelectionRange(0, 0), at('run').focus()")
    for place in [*WARNED_PLACES, WARNED_PLACES[0]]:
        browser.press("F8", 119)
        count.expect(f"F8 to {place}", browser.value("selected()"), place)
    browser.value("at('fault').querySelectorAll('button')[2].click()")
    count.expect("a press on a warning", browser.value("[selected(), document.activeElement.id]"), [WARNED_PLACES[2], "plan"])
    browser.value("at('visit').click()")
    count.expect("the button that goes to the next one", browser.value("selected()"), WARNED_PLACES[3])
    # The trace is made once its tab is shown; the step is marked then.
    browser.value("(async () => { at('trace-tab').click(); await settled(); at('to-first').click(); at('forward').click(); })()")
    browser.value("(async () => { for (let tries = 0; tries < 100 && document.querySelector('#marks .step') === null; tries += 1) {"
                  " await rest(50); at('to-first').click(); at('forward').click(); } })()")
    count.expect("a step that is warned of", browser.value("[...document.querySelectorAll('#marks .step')].map((it) => [it.textContent, it.className])"), [
        [WARNED_PLACES[1], "step warned"]])
    count.expect("the marks beside a step", browser.value("warned().marks"), WARNED_PLACES)
    browser.value("at('report-tab').click()")
    call(browser, "typed", whole('[["say", "x"], ["nwe"]]'), False)
    count.expect("a fault takes their place", browser.value("[warned().marks, at('fault').className]"), [[], "bad"])
    call(browser, "typed", whole('[["let", "x", 1], ["say", "x"]]'), False)
    wanted = {"told": "No fault.", "list": [], "marks": [], "canVisit": False}
    count.expect("a plan without warnings", browser.value("warned()"), wanted)
    got = call(browser, "typed", "let x = {};\n", True)
    count.expect("the plan of a script has no warnings", browser.value("warned()"), wanted)
    with open(os.path.join(TOP, "tests", "rows", "warnings.json"), encoding="utf-8") as file:
        rows = {row["name"]: row for row in json.load(file)}
    for name in WARNED_ROWS:
        row = rows[name]
        text = row["plan"] if isinstance(row["plan"], str) else json.dumps(row["plan"])
        call(browser, "typed", text, False)
        said = [line.split('" ', 1)[1] for line in row["lines"]]
        count.expect(f"the page: {name}", sorted(browser.value("warned().list")), sorted(f"Line 1: {sentence}" for sentence in said))
        places = {line.split('"')[1] for line in row["lines"]}
        count.expect(f"the marks: {name}", sorted(json.loads(it) for it in browser.value("warned().marks")), sorted(at_pointer(text, it) for it in places))


def at_pointer(text, pointer):
    value = json.loads(text)
    for part in pointer.split("/")[1:]:
        value = value[int(part)] if isinstance(value, list) else value[part]
    return value


def links(count, browser):
    """Links with a plan as it is, with a packed one, and with what is none; and the one that the page makes."""
    with open(os.path.join(TOP, "examples", "worker.json"), "rb") as file:
        plan = file.read()
    packer = zlib.compressobj(9, zlib.DEFLATED, -15)
    packed = base64.urlsafe_b64encode(packer.compress(plan) + packer.flush()).decode().rstrip("=")
    as_it_is = "".join(chr(byte) if chr(byte).isalnum() else f"%{byte:02X}" for byte in plan)
    for end in (packed, as_it_is):
        begin(browser, f"{PAGE}#plan={end}")
        count.expect(f"the plan of {end[:20]}", browser.value("at('plan').value"), plan.decode())
    browser.value("at('plan').value += ' '; at('link').click(); rest(300)")
    end = browser.value("location.hash").removeprefix("#plan=")
    found = zlib.decompress(base64.urlsafe_b64decode(end + "=" * (-len(end) % 4)), -15)
    count.expect("the link that the page makes", found, plan + b" ")
    begin(browser, f"{PAGE}#plan=%%%")
    count.expect("a link that is none", browser.value("at('about').textContent").strip().endswith("can't be read."), True)


def documents(count, browser):
    """The documents that the foot names are links where the page lies in its repository, and words elsewhere."""
    names, leads = "document.querySelectorAll('footer .document')", "[...document.querySelectorAll('footer a')].map((it) => it.href)"
    begin(browser, PAGE)
    named = browser.value(f"[...{names}].map((it) => it.textContent)")
    count.expect("documents are named", "docs/PLANS.md" in named and all(os.path.exists(os.path.join(TOP, name)) for name in named), True)
    count.expect("links to them", browser.value(leads), [f"file://{os.path.join(TOP, name)}" for name in named])
    with tempfile.TemporaryDirectory() as room:
        shutil.copy(PAGE.removeprefix("file://"), room)
        begin(browser, f"file://{room}/index.html")
        count.expect("a page elsewhere", browser.value(f"[[...{names}].map((it) => it.textContent), {leads}]"), [named, []])


def keys(count, browser):
    """Control and Enter run the plan, F8 shows the fault, and the menu goes by arrows and its field."""
    call(browser, "typed", whole('[["say", "x"]]'), False)
    browser.value("at('plan').focus()")
    browser.press("Enter", 13, modifiers=2)
    got = browser.value("settled()")
    count.expect("Control and Enter", got["report"].split("\n")[1:2], ["say undefined"])
    call(browser, "typed", whole('[["say", "x"], ["nwe"]]'), False)
    browser.press("F8", 119)
    chosen = browser.value("at('plan').value.slice(at('plan').selectionStart, at('plan').selectionEnd)")
    count.expect("F8", chosen, '["nwe"]')
    browser.value("at('open').click(); at('menu').querySelector('input').value = 'examples unregister token';"
                  "at('menu').querySelector('input').dispatchEvent(new Event('input'))")
    browser.press("ArrowDown", 40)
    count.expect("the arrow", browser.value("document.activeElement.querySelector('b').textContent"), "unregister")
    browser.press("Escape", 27)
    count.expect("Escape", browser.value("at('menu').open"), False)


def long_plan(commands):
    kinds = [["new", "a"], ["copy", "b", "a"], ["set", "a", "k", "b"], ["get", "c", "a", "k"]]
    agent = {"name": "a", "callbacks": {}, "jobs": [{"run": kinds * 2500}] * (commands // 10_000)}
    return json.dumps({"version": 1, "agents": [agent]})


def times(count, browser):
    """60,000 commands, from the press of the button to the report; the best of three runs."""
    call(browser, "typed", long_plan(60_000), False)
    best = 1e9
    for _ in range(3):
        begun = "at('report').textContent = ''; globalThis.begun = performance.now(); at('run').click()"
        got = browser.value(f"{begun}; settled().then((got) => ({{ ...got, took: performance.now() - begun }}))")
        best = min(best, got["took"])
        count.expect("60,000 commands", got["report"].split("\n")[0], "agent a")
    print(f"60,000 commands in the page: {best:.0f} ms")
    count.expect("the time of 60,000 commands", best < 1000, True)


def stopped(count, browser):
    """A long run is stopped, and a plan that is opened takes the place of one."""
    commands = [[["new", "x"]] * 10_000, *[[["collect"]] * 10_000] * 30]
    agent = {"name": "a", "callbacks": {}, "jobs": [{"run": run} for run in commands]}
    long = json.dumps(json.dumps({"version": 1, "agents": [agent]}))
    got = browser.value(f"typed({long}, true), rest(400).then(() => {{ at('stop').click(); return settled(); }})")
    count.expect("a run that is stopped", (got["report"], got["state"], got["fault"][:9]), ("", "Stopped.", "No fault."))
    browser.value(f"typed({long}, true), rest(400)")
    examples(count, browser)


def without_memory(count, browser):
    """A plan that takes more than there is on a machine of 256 MB, and plans after it."""
    small = "Object.defineProperty(Navigator.prototype, 'deviceMemory', { get: () => 0.25 })"
    script = browser.call("Page.addScriptToEvaluateOnNewDocument", source=small)["identifier"]
    begin(browser, PAGE)
    browser.call("Page.removeScriptToEvaluateOnNewDocument", identifier=script)
    commands = [["new", "o"], *[["set", "o", f"k{key}", "o"] for key in range(5000)]]
    agent = {"name": "a", "callbacks": {}, "jobs": [{"run": commands}, {"run": [["keys", "o"]] * 10_000}]}
    got = call(browser, "typed", json.dumps({"version": 1, "agents": [agent]}), True)
    count.expect("more memory than there is", (got["report"], got["state"].split(".")[0]), ("", "Memory ran out"))
    examples(count, browser)


def network(count, browser):
    """The page's policy forbids it all that it would fetch."""
    got = browser.value("fetch('data:,x').then(() => 'fetched', () => 'forbidden')")
    count.expect("the network", got, "forbidden")


def pictures(browser, folder):
    """The page with an example, with a fault, with its menu, and with traces."""
    os.makedirs(folder, exist_ok=True)
    scenes = {
        "example": "chosen('examples', 'worker')", "callbacks": "chosen('examples', 'queue')",
        "fault": f"typed({json.dumps(open(os.path.join(TOP, 'examples', 'gone.json'), encoding='utf-8').read().replace('deref', 'derf'))}, false)",
        "warnings": f"typed({json.dumps(WARNED)}, true)", "menu": "at('open').click()",
        "trace": "chosen('examples', 'ephemerons').then(() => traced(2))", "trace-of-two": "chosen('examples', 'worker').then(() => traced(1))",
    }
    for scene, doing in scenes.items():
        begin(browser, PAGE)
        browser.value(doing)
        for width, height in ((1280, 800), (420, 900)):
            for dark in (False, True):
                name = f"{scene}-{width}-{'dark' if dark else 'light'}.png"
                browser.look(width, height, dark, os.path.join(folder, name))
                if scene.startswith("trace") and width < height:
                    browser.value("at('rows').scrollIntoView(), rest(50)")
                    browser.look(width, height, dark, os.path.join(folder, name))


def try_all(count, path, folder):
    with Browser(path) as browser:
        begin(browser, PAGE)
        for part in (examples, traces, marks, warnings, keys, times, stopped, without_memory, network, links, documents):
            part(count, browser)
        thrown = [event["params"]["exceptionDetails"] for event in browser.events if event["method"] == "Runtime.exceptionThrown"]
        count.expect("what the page threw", thrown, [])
        if folder:
            pictures(browser, folder)
