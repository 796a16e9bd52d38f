"""A Chromium without a window, which drive.py speaks to, and which it shows the page in several looks."""

import base64
import json
import os
import subprocess
import sys
import time

# What is waited for comes within a blink, but on a machine that has other work.
SECONDS = 60
# A width and a height, whether it is a phone, and the scheme of colours that is preferred.
LOOKS = {
    "desktop": (1000, 1200, False, "light"),
    "dark": (1000, 1200, False, "dark"),
    "phone": (390, 844, True, "light"),
    "phone-dark": (390, 844, True, "dark"),
}
KEYS = {
    "Tab": ("Tab", 9, ""), "Enter": ("Enter", 13, "\r"), "Space": (" ", 32, " "),
    "ArrowDown": ("ArrowDown", 40, ""), "ArrowRight": ("ArrowRight", 39, ""), "End": ("End", 35, ""),
}
SHIFT = 8


class Browser:
    """It is spoken to over two pipes: JSON of its DevTools protocol, a NUL byte behind each message."""

    def __init__(self, profile):
        commands, self.commands = os.pipe()
        self.replies, replies = os.pipe()
        options = ["--headless", "--disable-gpu", "--hide-scrollbars", "--window-size=1000,1200"]
        options += ["--remote-debugging-pipe", f"--user-data-dir={profile}"] + ["--no-sandbox"] * (os.getuid() == 0)
        shell = ["bash", "-c", f'exec chromium "$@" 3<&{commands} 4>&{replies}', "chromium", *options]
        self.program = subprocess.Popen(shell, pass_fds=(commands, replies), stderr=subprocess.DEVNULL)
        os.close(commands)
        os.close(replies)
        self.heard, self.number, self.page, self.errors = b"", 0, {}, []
        self.tab()

    def tab(self):
        """Goes on in a new tab."""
        self.page = {}
        target = self.call("Target.createTarget", url="about:blank")["targetId"]
        self.page = {"sessionId": self.call("Target.attachToTarget", targetId=target, flatten=True)["sessionId"]}
        for domain in ("Page", "Runtime", "Log", "Accessibility"):
            self.call(f"{domain}.enable")
        self.call("Emulation.setFocusEmulationEnabled", enabled=True)

    def take(self):
        while b"\0" not in self.heard:
            piece = os.read(self.replies, 65_536)
            if not piece:
                sys.exit("page: Chromium ended")
            self.heard += piece
        message, _, self.heard = self.heard.partition(b"\0")
        return json.loads(message)

    def note(self, event):
        """Keeps what went wrong in the page. A status such as 403 is no error of the page."""
        if event.get("method") == "Runtime.exceptionThrown":
            self.errors.append(str(event["params"]["exceptionDetails"]))
        entry = event.get("params", {}).get("entry", {})
        if entry.get("level") in ("error", "warning") and entry.get("source") != "network":
            self.errors.append(f"{entry['source']}: {entry['text']}")

    def call(self, method, **params):
        self.number += 1
        message = {"id": self.number, "method": method, "params": params, **self.page}
        os.write(self.commands, json.dumps(message).encode() + b"\0")
        while True:
            reply = self.take()
            self.note(reply)
            if reply.get("id") == self.number:
                return reply["result"] if "result" in reply else sys.exit(f"page: {method}: {reply['error']}")

    def value(self, script):
        said = self.call("Runtime.evaluate", expression=script, returnByValue=True, awaitPromise=True)
        if "exceptionDetails" in said:
            sys.exit(f"page: {script}: {said['exceptionDetails']['exception'].get('description')}")
        return said["result"].get("value")

    def wait(self, script):
        """Waits until a script is true."""
        end = time.monotonic() + SECONDS
        while not self.value(script):
            if time.monotonic() > end:
                sys.exit(f"page: not within {SECONDS} seconds: {script}\n{self.value('document.body.innerText')}")
            time.sleep(0.05)

    def look(self, name):
        width, height, phone, scheme = LOOKS[name]
        self.call("Emulation.setDeviceMetricsOverride", width=width, height=height, deviceScaleFactor=2 if phone else 1, mobile=phone)
        self.call("Emulation.setTouchEmulationEnabled", enabled=phone)
        self.call("Emulation.setEmulatedMedia", features=[{"name": "prefers-color-scheme", "value": scheme}])

    def key(self, name, shift=False):
        key, code, text = KEYS[name]
        held = {"key": key, "code": name, "windowsVirtualKeyCode": code, "modifiers": SHIFT if shift else 0}
        self.call("Input.dispatchKeyEvent", type="keyDown" if text else "rawKeyDown", text=text, **held)
        self.call("Input.dispatchKeyEvent", type="keyUp", **held)

    def names(self, role):
        """The names of all things of a role, as they are read out."""
        nodes = self.call("Accessibility.getFullAXTree")["nodes"]
        there = [node for node in nodes if not node["ignored"] and node["role"]["value"] == role]
        return [node.get("name", {}).get("value", "") for node in there]

    def downloads_to(self, folder):
        self.call("Browser.setDownloadBehavior", behavior="allow", downloadPath=folder)

    def shoot(self, file):
        """A picture of the whole page, also of what is not on the screen."""
        size = self.call("Page.getLayoutMetrics")["cssContentSize"]
        clip = {"x": 0, "y": 0, "width": size["width"], "height": min(size["height"], 4000), "scale": 1}
        with open(file, "wb") as picture:
            picture.write(base64.b64decode(self.call("Page.captureScreenshot", captureBeyondViewport=True, clip=clip)["data"]))

    def close(self):
        """Ends it, also where it does not answer any more."""
        os.close(self.commands)
        try:
            self.program.wait(SECONDS)
        except subprocess.TimeoutExpired:
            self.program.kill()
