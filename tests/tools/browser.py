"""Chromium without a screen, driven by WebDriver over HTTP."""
import base64
import contextlib
import json
import os
import re
import shutil
import subprocess
import tempfile
import time
import urllib.request

from program.serving import PATIENCE

WIDE, HIGH = 1400, 900  # pixels of the window
KEYS, CONTROL = {"Tab": "\ue004", "Enter": "\ue007", "ArrowRight": "\ue014"}, "\ue009"


def has_browser():
    return bool(shutil.which("chromium") and shutil.which("chromedriver"))


def each(selector, what):
    """The expression of what each element of a kind has; the element is `it`."""
    return f"[...document.querySelectorAll({json.dumps(selector)})].map(it => {what})"


def text_of(selector):
    """The expression of an element's text."""
    return f"document.querySelector({json.dumps(selector)})?.textContent"


def count_of(selector):
    """The expression of how many elements there are of a kind."""
    return f"document.querySelectorAll({json.dumps(selector)}).length"


class Browser:
    """One window. What a script returns comes as it is in JSON."""

    def __init__(self, place, room):
        self.place = place
        words = ["--headless=new", "--no-sandbox", "--disable-gpu", "--disable-dev-shm-usage", f"--window-size={WIDE},{HIGH}",
                 f"--user-data-dir={room}", "--no-first-run", "--disable-background-networking"]
        wanted = {"browserName": "chrome", "goog:loggingPrefs": {"browser": "ALL"},
                  "goog:chromeOptions": {"binary": shutil.which("chromium"), "args": words}}
        self.session = ""
        self.session = f"/session/{self.call('POST', '/session', {'capabilities': {'alwaysMatch': wanted}})['sessionId']}"

    def call(self, method, path, body=None):
        asked = urllib.request.Request(f"{self.place}{self.session}{path}", method=method, headers={"Content-Type": "application/json"},
                                       data=None if body is None else json.dumps(body).encode())
        try:
            with urllib.request.urlopen(asked, timeout=PATIENCE) as answer:
                return json.load(answer)["value"]
        except urllib.error.HTTPError as fault:
            raise RuntimeError(f"{path}: {json.load(fault)['value']['message'].splitlines()[0]}") from None

    def go(self, url):
        self.call("POST", "/url", {"url": url})

    def run(self, script, *given):
        return self.call("POST", "/execute/sync", {"script": script, "args": given})

    def run_on(self, script, *given):
        """What a script gives to its last argument, which it calls once it is done."""
        return self.call("POST", "/execute/async", {"script": script, "args": given})

    def value(self, expression, *given):
        return self.run(f"return {expression}", *given)

    def until(self, expression, test=bool, seconds=PATIENCE):
        """The value of an expression once it passes a test, or as it is at the end of so many seconds."""
        end = time.monotonic() + seconds
        while not test(found := self.value(expression)) and time.monotonic() < end:
            time.sleep(0.02)
        return found

    def text(self, selector):
        return self.value(text_of(selector))

    def act(self, kind, *actions):
        self.call("POST", "/actions", {"actions": [{"type": kind, "id": kind, "actions": list(actions)}]})

    def press(self, *keys):
        """Presses keys one after another, by their names; a text is typed."""
        typed = [letter for key in keys for letter in ([KEYS[key]] if key in KEYS else key)]
        self.act("key", *({"type": kind, "value": key} for key in typed for kind in ("keyDown", "keyUp")))

    def paste(self):
        """Presses Control and V."""
        self.act("key", *({"type": kind, "value": key} for kind, key in (
            ("keyDown", CONTROL), ("keyDown", "v"), ("keyUp", "v"), ("keyUp", CONTROL))))

    def point(self, x, y, is_clicked=False):
        """Moves the pointer to a place of the window, and clicks there."""
        clicks = [{"type": "pointerDown", "button": 0}, {"type": "pointerUp", "button": 0}] if is_clicked else []
        self.act("pointer", {"type": "pointerMove", "x": round(x), "y": round(y)}, *clicks)

    def click(self, selector):
        """Clicks the first element of this kind that can be seen."""
        x, y = self.run("const it = document.querySelector(arguments[0]); it.scrollIntoView({block: 'center'}); "
                        "const box = it.getBoundingClientRect(); return [box.x + box.width / 2, box.y + box.height / 2]", selector)
        self.point(x, y, True)

    def told(self):
        """The lines of the console since they were read last."""
        return [line["message"] for line in self.call("POST", "/se/log", {"type": "browser"})]

    def resize(self, wide, high):
        self.call("POST", "/goog/cdp/execute", {"cmd": "Emulation.setDeviceMetricsOverride", "params": {
            "width": wide, "height": high, "deviceScaleFactor": 1, "mobile": False}})

    def shot(self, path):
        with open(path, "wb") as file:
            file.write(base64.b64decode(self.call("GET", "/screenshot")))


@contextlib.contextmanager
def browser():
    """A window of a browser of its own."""
    with tempfile.TemporaryDirectory(ignore_cleanup_errors=True) as room:
        driver = subprocess.Popen(["chromedriver", "--port=0"], stdout=subprocess.PIPE, stderr=subprocess.DEVNULL, text=True,
                                  env={**os.environ, "HOME": room})
        try:
            port = next(found[1] for line in driver.stdout if (found := re.search(r"started successfully on port ([0-9]+)", line)))
            window = Browser(f"http://127.0.0.1:{port}", room)
            try:
                yield window
            finally:
                window.call("DELETE", "")
        finally:
            driver.terminate()
            driver.wait(PATIENCE)
            driver.stdout.close()
