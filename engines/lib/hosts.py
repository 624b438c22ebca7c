"""The engines that there are hosts for: how each is found on a machine, its words, and its version."""

import os
import shutil
import subprocess
import sys

HERE = os.path.dirname(os.path.dirname(os.path.abspath(__file__)))
PLAN = os.path.join(HERE, "plan.js")
HOSTS = os.path.join(HERE, "hosts")


class Missing(Exception):
    """An engine that is not on this machine."""


class Engine:
    """An engine: its command, the words that run scripts, what it says of its version, and how many seconds it may be
    silent."""

    def __init__(self, name, command, words, version, seconds=120.0):
        self.name, self.command, self.words, self.version, self.seconds = name, command, words, version, seconds

    def words_with(self, scripts):
        """The words that run plans, after scripts such as planted faults."""
        return [self.command, *self.words([*scripts, PLAN])]


def host(name):
    return os.path.join(HOSTS, name)


def said(*words):
    ended = subprocess.run(words, capture_output=True, text=True, timeout=60, check=False)
    return ended.stdout.strip()


def found(name, *commands):
    for command in commands:
        if command and shutil.which(command):
            return shutil.which(command)
    raise Missing(f"{name} is not installed")


def node():
    command = found("node", os.environ.get("NODE"), "node")
    numbers = said(command, "-p", "`${process.versions.node} (V8 ${process.versions.v8})`")
    flags = ["--expose-gc", "--single-threaded", "--single-threaded-gc"]  # else each collection waits for other work
    return Engine("node", command, lambda scripts: [*flags, host("node.mjs"), *scripts], f"node {numbers}")


def jsc():
    command = found("jsc", os.environ.get("JSC"), "jsc")
    package = said("dpkg-query", "-W", "-f", "${Version}", "libjavascriptcoregtk-4.0-bin") if shutil.which("dpkg") else ""
    version = f"JavaScriptCore {package or '(its shell tells no version)'}"
    return Engine("jsc", command, lambda scripts: [*scripts, host("jsc.js")], version)


def js():
    command = os.environ.get("JS") or shutil.which("js") or built_js()
    if command == BUILT_JS:
        return Engine("js", command, lambda scripts: [*scripts, host("js.js")], f"SpiderMonkey {said(command)}")
    filed = lambda scripts: [word for script in [*scripts, host("js.js")] for word in ("-f", script)]
    return Engine("js", command, filed, f"SpiderMonkey's shell {said(command, '--version')}")


BUILT_JS = os.path.join(HERE, "out", "js")


def built_js():
    """The shell over SpiderMonkey's library, which is built where the library is installed."""
    source = host("js.cpp")
    if not os.path.isfile(BUILT_JS) or os.path.getmtime(BUILT_JS) < os.path.getmtime(source):
        asked = ["pkg-config", "--cflags", "--libs", "mozjs-102"]
        flags = said(*asked).split() if shutil.which("pkg-config") and shutil.which("g++") else []
        if not flags:
            raise Missing("js is not installed, nor libmozjs-102-dev with pkg-config and g++")
        os.makedirs(os.path.dirname(BUILT_JS), exist_ok=True)
        subprocess.run(["g++", "-std=c++17", "-O1", "-o", BUILT_JS, source, *flags], check=True)
    return BUILT_JS


def d8():
    command = found("d8", os.environ.get("D8"), "d8")
    version = said(command, "-e", "print(version())")
    return Engine("d8", command, lambda scripts: ["--expose-gc", *scripts, host("d8.js")], f"d8 {version}")


def qjs():
    command = found("qjs", os.environ.get("QJS"), "qjs")
    version = said(command, "--help").partition("\n")[0]
    included = lambda scripts: [word for script in scripts for word in ("-I", script)]
    return Engine("qjs", command, lambda scripts: ["--std", *included(scripts), host("qjs.js")], version)


def chromium():
    command = found("chromium", os.environ.get("CHROMIUM"), "chromium", "chromium-browser", "google-chrome")
    words = [host("page.py"), "--browser", command]
    return Engine("chromium", sys.executable, lambda scripts: [*words, *scripts], said(command, "--version"), 600.0)


def gjs():
    command = found("gjs", os.environ.get("GJS"), "gjs")
    return Engine("gjs", command, lambda scripts: [host("gjs.js"), *scripts], said(command, "--version"))


def firefox():
    command = found("firefox", os.environ.get("FIREFOX"), "firefox", "firefox-esr")
    words = [host("firefox.py"), "--browser", command]
    return Engine("firefox", sys.executable, lambda scripts: [*words, *scripts], said(command, "--version"), 600.0)


def workers(turns="job", seed=1):
    """Node with a thread for each agent. `turns` says who goes on when: by `job`, by `command`, or all at once, `none`."""
    alone = node()
    words = ["--expose-gc", host("workers.mjs"), "--turns", turns, "--seed", str(seed)]
    version = f"{alone.version}, an agent a thread, {HOW[turns]}"
    return Engine("workers", alone.command, lambda scripts: [*words, *scripts], version)


def jsc_agents(turns="job", seed=1):
    """JavaScriptCore's shell with an agent of `$262.agent` for each agent, which is a thread with a heap of its own."""
    alone = jsc()
    words = [host("jsc-agents.js"), "--", host("threads"), turns, str(seed)]
    version = f"{alone.version}, an agent a thread, {HOW[turns]}"
    return Engine("jsc-agents", alone.command, lambda scripts: [*words, *scripts], version)


HOW = {"job": "by turns", "command": "by turns of a command", "none": "at once"}
ENGINES = {
    "node": node, "workers": workers, "d8": d8, "jsc": jsc, "jsc-agents": jsc_agents, "js": js, "qjs": qjs, "gjs": gjs,
    "chromium": chromium, "firefox": firefox,
}
IN_THREADS = {"workers": workers, "jsc-agents": jsc_agents}  # those whose agents are threads


def engine(name):
    return ENGINES[name]()


IN_PAGES = ("chromium", "firefox")  # those whose words are those of a script that drives a browser
WITH_MESSAGES = ("node", *IN_THREADS, "chromium")  # those whose hosts can clone a SharedArrayBuffer
