"""Headless Chromium, driven by chromedriver over WebDriver: Debian's packages chromium and chromium-driver."""

from __future__ import annotations

import base64
import json
import pathlib
import shutil
import subprocess
import sys
import time
import urllib.error
import urllib.request
from typing import Any

WORDS = ("--headless=new", "--no-sandbox", "--disable-gpu", "--disable-dev-shm-usage", "--force-color-profile=srgb")
ELEMENT = "element-6066-11e4-a52e-4f735466cecf"  # the key of an element in WebDriver's JSON
KEYS = {"Tab": "\ue004", "Enter": "\ue007", "Space": " ", "Up": "\ue013"}


class Browser:
    """A page in Chromium."""

    def __init__(self) -> None:
        for name in ("chromium", "chromedriver"):
            if shutil.which(name) is None:
                sys.exit(f"{name} is not there: Debian's packages chromium and chromium-driver have it")
        words = ["chromedriver", "--port=0"]
        self.driver = subprocess.Popen(words, stdout=subprocess.PIPE, stderr=subprocess.DEVNULL, text=True)
        assert self.driver.stdout
        began = next(line for line in self.driver.stdout if "successfully on port" in line)
        port = began.split("port ")[-1].strip(" .\n")
        self.base = f"http://127.0.0.1:{port}/session"
        options = {"args": WORDS, "binary": shutil.which("chromium")}
        wanted = {"goog:chromeOptions": options, "goog:loggingPrefs": {"browser": "ALL"}}
        session = self.call("POST", "", {"capabilities": {"alwaysMatch": wanted}})
        self.base += f"/{session['sessionId']}"

    def call(self, method: str, path: str, body: object = None) -> Any:
        """Returns the driver's reply to a command."""
        data = None if method in ("GET", "DELETE") else json.dumps(body or {}).encode()
        asked = urllib.request.Request(self.base + path, data, {"Content-Type": "application/json"}, method=method)
        try:
            with urllib.request.urlopen(asked, timeout=120) as answer:
                return json.load(answer)["value"]
        except urllib.error.HTTPError as error:
            raise RuntimeError(f"{path}: {error.read().decode()[:400]}") from None

    def end(self) -> None:
        try:
            self.call("DELETE", "")
        finally:
            self.driver.terminate()
            self.driver.wait()

    def open(self, url: str) -> None:
        self.call("POST", "/url", {"url": url})

    def run(self, script: str, *arguments: object) -> Any:
        """Returns the result of a script, which may await."""
        waits = "const done = arguments[arguments.length - 1]; (async (...a) => {%s})(...arguments).then(done, done)"
        return self.call("POST", "/execute/async", {"script": waits % script, "args": list(arguments)})

    def devtools(self, command: str, **params: object) -> Any:
        return self.call("POST", "/goog/cdp/execute", {"cmd": command, "params": params})

    def size(self, width: int, height: int) -> None:
        self.devtools(
            "Emulation.setDeviceMetricsOverride", width=width, height=height, deviceScaleFactor=1, mobile=width < 500
        )
        time.sleep(0.6)

    def prefer(self, **features: str) -> None:
        """Sets the preferences of a person that the page sees."""
        wanted = [{"name": f"prefers-{name.replace('_', '-')}", "value": value} for name, value in features.items()]
        self.devtools("Emulation.setEmulatedMedia", features=wanted)

    def picture(self, path: pathlib.Path) -> None:
        """Writes a picture of the viewport."""
        path.parent.mkdir(parents=True, exist_ok=True)
        path.write_bytes(base64.b64decode(self.devtools("Page.captureScreenshot")["data"]))

    def press(self, *keys: str) -> None:
        """Presses keys of the keyboard one after another: names of KEYS, or text."""
        acts = []
        for key in "".join(KEYS.get(key, key) for key in keys):
            acts += [{"type": "keyDown", "value": key}, {"type": "keyUp", "value": key}]
        self.call("POST", "/actions", {"actions": [{"type": "key", "id": "keyboard", "actions": acts}]})

    def element(self, selector: str) -> str:
        found: dict[str, str] = self.call("POST", "/element", {"using": "css selector", "value": selector})
        return f"/element/{found[ELEMENT]}"

    def click(self, selector: str) -> None:
        self.call("POST", self.element(selector) + "/click")

    def type(self, selector: str, text: str, *keys: str) -> None:
        """Types a text in place of the present one."""
        field = self.element(selector)
        self.call("POST", field + "/clear")
        self.call("POST", field + "/value", {"text": text + "".join(KEYS[key] for key in keys)})

    def text(self, selector: str) -> str:
        return str(self.call("GET", self.element(selector) + "/text"))

    def errors(self) -> list[str]:
        """Returns the console messages since the last call."""
        return [entry["message"] for entry in self.call("POST", "/se/log", {"type": "browser"})]
