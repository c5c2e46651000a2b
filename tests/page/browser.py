"""A real browser, headless, driven by chromedriver in the protocol of WebDriver. Python's own libraries suffice for that."""

import base64
import json
import re
import subprocess
import tempfile
import time
import urllib.error
import urllib.request

ELEMENT = "element-6066-11e4-a52e-4f735466cecf"
TAB, ENTER, SPACE, SHIFT = "\ue004", "\ue007", " ", "\ue008"
# No proxy stands between this and the driver.
DIRECT = urllib.request.build_opener(urllib.request.ProxyHandler({}))
OPTIONS = ["--headless=new", "--no-sandbox", "--disable-gpu", "--disable-dev-shm-usage", "--no-first-run", "--disable-extensions", "--hide-scrollbars"]


class Browser:
    """A window of a browser."""

    def __init__(self):
        self.folder = tempfile.TemporaryDirectory()
        self.driver = subprocess.Popen(["chromedriver", "--port=0"], stdout=subprocess.PIPE, stderr=subprocess.DEVNULL, text=True)
        found = None
        while found is None:
            line = self.driver.stdout.readline()
            assert line, "chromedriver does not start"
            found = re.search(r"successfully on port (\d+)", line)
        self.address = f"http://127.0.0.1:{found[1]}/session"
        options = {"args": [*OPTIONS, f"--user-data-dir={self.folder.name}"]}
        wanted = {"capabilities": {"alwaysMatch": {"browserName": "chrome", "goog:chromeOptions": options, "goog:loggingPrefs": {"browser": "ALL"}}}}
        self.address += "/" + self.call("POST", "", wanted)["sessionId"]

    def call(self, method, path, body=None):
        data = None if body is None else json.dumps(body).encode()
        asked = urllib.request.Request(self.address + path, data, {"Content-Type": "application/json"}, method=method)
        try:
            with DIRECT.open(asked, timeout=120) as answer:
                return json.load(answer)["value"]
        except urllib.error.HTTPError as error:
            with error:
                raise AssertionError(json.load(error)["value"]["message"]) from None

    def go(self, address):
        self.call("POST", "/url", {"url": address})

    def run(self, script, *given):
        """What a script of the test gives."""
        return self.call("POST", "/execute/sync", {"script": script, "args": list(given)})

    def window(self):
        return self.call("GET", "/window")

    def another(self):
        """Another window, which is the one from now on."""
        self.to(self.call("POST", "/window/new", {"type": "window"})["handle"])

    def to(self, window):
        self.call("POST", "/window", {"handle": window})

    def find(self, css):
        return self.call("POST", "/element", {"using": "css selector", "value": css})[ELEMENT]

    def click(self, css):
        self.run("document.querySelector(arguments[0]).scrollIntoView({block: 'center'})", css)
        self.call("POST", f"/element/{self.find(css)}/click", {})

    def type(self, css, text):
        """Types into a field in place of what stands there."""
        element = self.find(css)
        self.call("POST", f"/element/{element}/clear", {})
        self.call("POST", f"/element/{element}/value", {"text": text})

    def keys(self, *typed):
        """Keys of the keyboard, wherever the focus is."""
        actions = [{"type": kind, "value": key} for word in typed for key in word for kind in ("keyDown", "keyUp")]
        self.call("POST", "/actions", {"actions": [{"type": "key", "id": "keyboard", "actions": actions}]})

    def text(self, css):
        return self.run("return document.querySelector(arguments[0])?.innerText ?? ''", css)

    def kind(self, css):
        return self.run("return document.querySelector(arguments[0]).className", css).split()

    def until(self, asked, seconds=10.0):
        """Waits until something holds; how long it took."""
        began = time.monotonic()
        while not (found := asked()):
            if time.monotonic() - began > seconds:
                raise AssertionError(f"not within {seconds} seconds; the page says:\n{self.text('body')[:3000]}")
            time.sleep(0.05)
        return time.monotonic() - began if found else 0.0

    def says(self, css, words, seconds=10.0):
        """Waits until a part of the page says some words."""
        return self.until(lambda: words in self.text(css), seconds)

    def screen(self, width, height, phone=False, dark=False):
        self.devtools("Emulation.setDeviceMetricsOverride", width=width, height=height, deviceScaleFactor=1, mobile=phone)
        self.devtools("Emulation.setEmulatedMedia", features=[{"name": "prefers-color-scheme", "value": "dark" if dark else "light"}])

    def devtools(self, command, **given):
        return self.call("POST", "/goog/cdp/execute", {"cmd": command, "params": given})

    def shot(self, path):
        with open(path, "wb") as file:
            file.write(base64.b64decode(self.call("GET", "/screenshot")))

    def log(self):
        """What the browser complained of."""
        return [entry["message"] for entry in self.call("POST", "/se/log", {"type": "browser"})]

    def close(self):
        try:
            self.call("DELETE", "")
        finally:
            self.driver.terminate()
            self.driver.wait()
            self.driver.stdout.close()
            self.folder.cleanup()
