"""Chromium and its pages, for scripts that try pages."""
import base64
import contextlib
import json
import pathlib
import shutil
import sys
import tempfile
import time
import urllib.parse
import urllib.request

try:
    import websocket
except ImportError:
    sys.exit("the module websocket isn't there: Debian's python3-websocket")

from .processes import PATIENCE, Process, until

LONGEST = 120


class Browser(Process):
    """Chromium without a window, with a profile of its own."""

    def __init__(self):
        if not shutil.which("chromium"):
            sys.exit("chromium isn't there: Debian's package chromium")
        self.profile = tempfile.mkdtemp(prefix="browser-")
        self.told = pathlib.Path(self.profile) / "DevToolsActivePort"
        super().__init__(["chromium", "--headless=new", "--no-sandbox", "--disable-gpu", "--remote-debugging-port=0",
                          "--remote-allow-origins=*", f"--user-data-dir={self.profile}", "about:blank"])

    def is_up(self):
        return self.told.exists() and self.told.read_text()

    @property
    def port(self):
        return int(self.told.read_text().split()[0])

    def end(self, *how):
        super().end(*how)
        shutil.rmtree(self.profile, ignore_errors=True)


class Page:
    """One page of the browser, driven by the DevTools protocol."""

    def __init__(self, browser, url, width):
        request = urllib.request.Request(f"http://127.0.0.1:{browser.port}/json/new?{urllib.parse.quote(url)}", method="PUT")
        target = json.load(urllib.request.urlopen(request))
        self.id = target["id"]
        self.line = websocket.create_connection(target["webSocketDebuggerUrl"], timeout=LONGEST, suppress_origin=True)
        self.number = 0
        self.told = None
        self.call("Page.enable")
        self.call("Emulation.setDeviceMetricsOverride", width=width, height=700, deviceScaleFactor=1, mobile=False)

    def call(self, method, **values):
        self.number += 1
        self.line.send(json.dumps({"id": self.number, "method": method, "params": values}))
        while True:
            answer = json.loads(self.line.recv())
            if answer.get("method") == "Runtime.bindingCalled":
                self.told(answer["params"]["payload"])
            if answer.get("id") == self.number:
                return answer.get("result", {})

    def listen(self, name, told):
        """The page gets a function of this name; what it is called with is told."""
        self.told = told
        self.call("Runtime.enable")
        self.call("Runtime.addBinding", name=name)

    def run(self, text):
        answer = self.call("Runtime.evaluate", expression=text, awaitPromise=True, returnByValue=True)
        if "exceptionDetails" in answer:
            raise RuntimeError(answer["exceptionDetails"]["exception"].get("description", text))
        return answer["result"].get("value")

    def becomes(self, text, seconds=PATIENCE):
        """Whether an expression becomes true in time."""
        return bool(until(lambda: self.run(text), seconds))

    def close(self):
        with contextlib.suppress(OSError, websocket.WebSocketException):
            self.call("Target.closeTarget", targetId=self.id)

    def turn_to(self, scheme):
        """The colours are those for a dark or a light surrounding."""
        self.call("Emulation.setEmulatedMedia", features=[{"name": "prefers-color-scheme", "value": scheme}])

    def picture(self, path):
        path.parent.mkdir(parents=True, exist_ok=True)
        path.write_bytes(base64.b64decode(self.call("Page.captureScreenshot")["data"]))

    def pictures(self, folder, name):
        self.call("Page.bringToFront")
        for scheme in ("dark", "light"):
            self.turn_to(scheme)
            time.sleep(0.3)
            self.picture(folder / f"{name}-{scheme}.png")
