#!/usr/bin/env python3
"""The host of Firefox: runs the scripts in a sandbox of the browser's own process, and prints the answers.

Usage: firefox.py [--browser COMMAND] SCRIPT .. < plans
The last script must be the interpreter. Only in the browser's process can a collection be forced, so the browser is
driven by Marionette, its own protocol for that, over a socket. Answers come by `dump`, as lines of its standard output.
The sandbox has builtins of its own that can be changed, so that faults can be planted. An error that leaves a callback
is told to the browser's console, and swallowed.
"""

import argparse
import json
import os
import signal
import socket
import subprocess
import sys
import tempfile
import time

SECONDS_TO_START, SECONDS_TO_END = 120, 20
PREFERENCES = {
    "browser.dom.window.dump.enabled": True,
    "security.allow_parent_unrestricted_js_loads": True,
    "security.allow_eval_with_system_principal": True,
    # nothing is asked of the network
    "app.update.enabled": False,
    "browser.shell.checkDefaultBrowser": False,
    "datareporting.policy.dataSubmissionEnabled": False,
    "network.captive-portal-service.enabled": False,
    "services.settings.server": "http://127.0.0.1:1",
}
OPTIONS = ["--headless", "--marionette", "--remote-allow-system-access", "--no-remote", "--profile"]
# what the browser's process runs; the last argument ends it
RUN = """
const [scripts, lines, done] = arguments;
const { setTimeout } = ChromeUtils.importESModule("resource://gre/modules/Timer.sys.mjs");
const principal = Services.scriptSecurityManager.getSystemPrincipal();
const box = new Cu.Sandbox(principal, { freshCompartment: true, freezeBuiltins: false });
Object.assign(box, { lines, done, gc: () => Cu.forceGC(), write: (line) => dump(line + "\\n") });
box.setTimeout = (go, time) => setTimeout(() => go(), time);
for (const [name, text] of scripts) Cu.evalInSandbox(text, box, "latest", name, 1);
Cu.evalInSandbox(`
  globalThis.task = () => new Promise((go) => setTimeout(go, 0));
  Plans.answer([...lines], {
    collect: () => gc(), task, write, swallows: true,
    wait: async () => { for (let turns = 0; turns < 4; turns += 1) await task(); },
  }).then(() => done(""), (e) => done(String(e)));
`, box);
"""


class Marionette:
    """A connection to a browser: texts of JSON, each after its length. One that is asked is [0, number, word, operands]."""

    def __init__(self, port, browser):
        self.file, self.count = connected(port, browser).makefile("rwb"), 0
        self.read()  # what the browser says of itself

    def read(self):
        size = b""
        while not size.endswith(b":"):
            byte = self.file.read(1)
            if not byte:
                sys.exit("the browser ended")
            size += byte
        return json.loads(self.file.read(int(size[:-1])))

    def ask(self, word, operands):
        self.count += 1
        text = json.dumps([0, self.count, word, operands]).encode()
        self.file.write(b"%d:%s" % (len(text), text))
        self.file.flush()
        _, _, error, value = self.read()
        if error:
            sys.exit(f"{word}: {error['error']}: {error['message']}")
        return value


def connected(port, browser):
    """A socket to a browser that is starting."""
    end = time.monotonic() + SECONDS_TO_START
    while True:
        try:
            return socket.create_connection(("127.0.0.1", port))
        except OSError:
            if browser.poll() is not None or time.monotonic() > end:
                sys.exit("the browser did not start")
            time.sleep(0.2)


def free_port():
    with socket.socket() as free:
        free.bind(("127.0.0.1", 0))
        return free.getsockname()[1]


def started(command, profile, port, output=None):
    """The browser; `output` is where its standard output goes, which is ours if nothing is said."""
    with open(os.path.join(profile, "user.js"), "w", encoding="utf-8") as file:
        for name, value in {"marionette.port": port, **PREFERENCES}.items():
            file.write(f"user_pref({json.dumps(name)}, {json.dumps(value)});\n")
    quiet = {"stdin": subprocess.DEVNULL, "stderr": subprocess.DEVNULL}
    return subprocess.Popen([command, *OPTIONS, profile], start_new_session=True, stdout=output, **quiet)


def end(browser):
    browser.terminate()
    try:
        browser.wait(SECONDS_TO_END)
    except subprocess.TimeoutExpired:
        os.killpg(browser.pid, signal.SIGKILL)  # the browser's processes are a group of their own
        browser.wait()


def run(browser, port, scripts, lines):
    """What the run ended with: nothing, or an error."""
    marionette = Marionette(port, browser)
    timeouts = {"timeouts": {"script": 24 * 3600 * 1000}}
    marionette.ask("WebDriver:NewSession", {"capabilities": {"alwaysMatch": timeouts}})
    marionette.ask("Marionette:SetContext", {"value": "chrome"})
    return marionette.ask("WebDriver:ExecuteAsyncScript", {"script": RUN, "args": [scripts, lines]})["value"]


def text_of(path):
    with open(path, encoding="utf-8") as file:
        return file.read()


def main():
    parser = argparse.ArgumentParser(description=__doc__, formatter_class=argparse.RawDescriptionHelpFormatter)
    parser.add_argument("--browser", default="firefox", metavar="COMMAND")
    parser.add_argument("scripts", nargs="+", metavar="SCRIPT")
    given = parser.parse_args()
    lines = [line for line in sys.stdin.read().split("\n") if line]
    signal.signal(signal.SIGTERM, lambda *_: sys.exit(1))
    with tempfile.TemporaryDirectory(ignore_cleanup_errors=True) as profile:
        port = free_port()
        browser = started(given.browser, profile, port)
        try:
            failed = run(browser, port, [[path, text_of(path)] for path in given.scripts], lines)
        finally:
            end(browser)
    sys.exit(failed or 0)


if __name__ == "__main__":
    main()
