#!/usr/bin/env python3
"""The host of a browser: serves page.html with the interpreter and plans, and prints the answers that the page sends.

Usage: page.py [--browser COMMAND] SCRIPT .. < plans
The last script must be the interpreter. With a browser that takes chromium's options it is started without a window,
and ended at last; else the address is told on standard error, to be opened by hand. A page has SharedArrayBuffers only
where it is isolated, so the server's answers say that it is.
"""

import argparse
import http.server
import os
import shutil
import signal
import subprocess
import sys
import tempfile
import threading

HERE = os.path.dirname(os.path.abspath(__file__))
OPTIONS = [
    "--headless=new", "--no-sandbox", "--disable-gpu", "--disable-dev-shm-usage", "--no-first-run",
    "--js-flags=--expose-gc",
]


class Pages(http.server.BaseHTTPRequestHandler):
    """The page, its scripts, and the plans. `server` has them, and when the page has ended."""

    def do_GET(self):
        found = self.server.files.get(self.path)
        self.answer(404 if found is None else 200, *(found or ("text/plain", b"")))

    def do_POST(self):
        body = self.rfile.read(int(self.headers["Content-Length"]))
        if self.path == "/answer":
            sys.stdout.write(body.decode() + "\n")
            sys.stdout.flush()
        else:
            self.server.ended.set()
        self.answer(200, "text/plain", b"")

    def answer(self, status, kind, body):
        self.send_response(status)
        self.send_header("Content-Type", kind)
        self.send_header("Content-Length", str(len(body)))
        self.send_header("Cross-Origin-Opener-Policy", "same-origin")
        self.send_header("Cross-Origin-Embedder-Policy", "require-corp")
        self.end_headers()
        self.wfile.write(body)

    def log_message(self, *_):
        pass


def files(scripts):
    """What the page asks for, by path: kinds and bytes."""
    with open(os.path.join(HERE, "page.html"), encoding="utf-8") as file:
        page = file.read()
    tags = "\n".join(f'<script src="script{at}.js"></script>' for at in range(len(scripts)))
    found = {"/": ("text/html", page.replace('<script src="plan.js"></script>', tags).encode())}
    for at, script in enumerate(scripts):
        with open(script, "rb") as file:
            found[f"/script{at}.js"] = ("text/javascript", file.read())
    found["/plans"] = ("text/plain", sys.stdin.buffer.read())
    return found


def main():
    parser = argparse.ArgumentParser(description=__doc__, formatter_class=argparse.RawDescriptionHelpFormatter)
    parser.add_argument("--browser", metavar="COMMAND")
    parser.add_argument("scripts", nargs="+", metavar="SCRIPT")
    given = parser.parse_args()
    server = http.server.ThreadingHTTPServer(("127.0.0.1", 0), Pages)
    server.files, server.ended = files(given.scripts), threading.Event()
    threading.Thread(target=server.serve_forever, daemon=True).start()
    address = f"http://127.0.0.1:{server.server_address[1]}/"
    if not given.browser:
        print(f"open {address}", file=sys.stderr, flush=True)
        server.ended.wait()
        return
    profile = tempfile.mkdtemp()
    words = [given.browser, *OPTIONS, f"--user-data-dir={profile}", address]
    browser = subprocess.Popen(words, stdout=subprocess.DEVNULL, stderr=subprocess.DEVNULL)
    signal.signal(signal.SIGTERM, lambda *_: server.ended.set())
    while not server.ended.wait(1) and browser.poll() is None:
        pass
    browser.terminate()
    browser.wait()
    shutil.rmtree(profile, ignore_errors=True)


main()
