"""Firefox without a window, for the tests: one page, and what its scripts say. It is spoken to by Marionette, as
engines/hosts/firefox.py does, so nothing but the browser is needed. It has the calls of browser.py that these tests need."""

import importlib.util
import os
import shutil
import subprocess
import tempfile

TOP = os.path.dirname(os.path.dirname(os.path.dirname(os.path.abspath(__file__))))
NAMES = ["firefox", "firefox-esr"]
KEYS = {
    "Enter": "\ue007", "Escape": "\ue00c", "Tab": "\ue004", "Home": "\ue011", "End": "\ue010", " ": " ",
    "ArrowUp": "\ue013", "ArrowDown": "\ue015", "ArrowLeft": "\ue012", "ArrowRight": "\ue014",
}
MODIFIERS = {1: "\ue00a", 2: "\ue009", 8: "\ue008"}
# What an expression, or the promise that it gives, comes to. A call has a scope of its own, so that the tools stand before each.
EVALUATE = """
const [tools, expression, done] = arguments;
(async () => {
  try { done({ value: (await eval(`${tools}\\n${expression}`)) ?? null }); } catch (error) { done({ error: String(error) }); }
})();
"""


def host():
    """The module of the host that drives the browser."""
    place = os.path.join(TOP, "engines", "hosts", "firefox.py")
    spec = importlib.util.spec_from_file_location("firefox_host", place)
    module = importlib.util.module_from_spec(spec)
    spec.loader.exec_module(module)
    return module


def found():
    """The path of the browser, or None."""
    return next((path for path in map(shutil.which, NAMES) if path), None)


class Firefox:
    """A browser with one page. It is ended at the end of a `with`. `tools` are texts of scripts that define what is asked by."""

    def __init__(self, path, tools):
        self.host, self.profile, self.all_tools, self.tools = host(), tempfile.mkdtemp(), tools, ""
        port = self.host.free_port()
        self.process = self.host.started(path, self.profile, port, subprocess.DEVNULL)
        self.marionette = self.host.Marionette(port, self.process)
        capabilities = {"alwaysMatch": {"timeouts": {"script": 300000, "pageLoad": 300000}}}
        self.marionette.ask("WebDriver:NewSession", {"capabilities": capabilities})

    def open(self, address):
        """Shows a page, from its beginning."""
        self.marionette.ask("WebDriver:Navigate", {"url": address})

    def value(self, expression):
        """What an expression, or the promise that it gives, comes to in the page."""
        if expression in self.all_tools:
            self.tools += expression
            return None
        got = self.marionette.ask("WebDriver:ExecuteAsyncScript", {"script": EVALUATE, "args": [self.tools, expression]})["value"]
        if "error" in got:
            raise RuntimeError(f"{expression[:200]}: {got['error']}")
        return got["value"]

    def press(self, key, _code, modifiers=0):
        """Presses a key; 1 is the modifier Alt, 2 is Control, and 8 Shift."""
        held = [name for bit, name in MODIFIERS.items() if modifiers & bit]
        pressed = [{"type": "keyDown", "value": one} for one in [*held, KEYS.get(key, key)]]
        released = [{"type": "keyUp", "value": one} for one in [KEYS.get(key, key), *held]]
        self.marionette.ask("WebDriver:PerformActions", {"actions": [{"type": "key", "id": "keys", "actions": pressed + released}]})

    def sized(self, width, height):
        """Makes the window so wide and high."""
        self.marionette.ask("WebDriver:SetWindowRect", {"width": width, "height": height})

    def __enter__(self):
        return self

    def __exit__(self, *_):
        self.host.end(self.process)
        shutil.rmtree(self.profile, ignore_errors=True)
