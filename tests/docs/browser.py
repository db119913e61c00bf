"""Headless browsers, driven with the standard library alone: Chromium over its debugging pipe, and Firefox, in firefox.py, over Marionette."""

import base64
import json
import os
import shutil
import struct
import subprocess
import tempfile
import time


class Browser:
    """What a test asks of a browser. `call` and `js` are each browser's own, and `width` is that of its memories in the page."""

    def __init__(self):
        self.room = tempfile.mkdtemp()
        self.process = None

    def begin(self, words, **how):
        self.process = subprocess.Popen(words, stdout=subprocess.DEVNULL, stderr=subprocess.DEVNULL, **how)

    def settle(self, limit=60):
        """Waits until the page says something in its body's data-ready, and gives that."""
        for _ in range(limit * 20):
            ready = self.js("document.body && document.body.dataset.ready || ''")
            if ready:
                return ready
            time.sleep(0.05)
        return "never"

    def open(self, url, wide=1100, high=900):
        """Opens a page anew, and gives what it says in its body's data-ready once it does."""
        self.resize(wide, high)
        self.visit("about:blank")
        self.visit(url)
        return self.settle(20)

    def open_file(self, path, suffix="", wide=1200, high=900):
        # (a browser that is handed a file by a relative path doesn't answer any more)
        return self.open(f"file://{os.path.abspath(path)}{suffix}", wide, high)

    def waits_for(self, what, limit=20):
        """Whether what is said of the page comes true within so many seconds."""
        for _ in range(limit * 20):
            if self.js(what):
                return True
            time.sleep(0.05)
        return False

    def looks(self, path, suffix, shot=None):
        """What is wrong with a page on narrow screens and in dark colours. Pictures of it go to files that begin so."""
        for wide, high in ((1100, 1000), (390, 844)):
            for scheme in ("light", "dark"):
                self.scheme(scheme)
                self.open_file(path, suffix, wide, high)
                if not self.js("document.documentElement.scrollWidth <= innerWidth"):
                    yield f"the page is wider than {wide} pixels"
                back = self.js("getComputedStyle(document.body).backgroundColor")
                if (back == "rgb(255, 255, 255)") != (scheme == "light"):
                    yield f"{scheme}: the page's colour is {back}"
                if shot:
                    self.keep_shot(f"{shot}_{self.title}_{scheme}_{wide}.png")

    def keep_shot(self, path, whole=False):
        """Keeps a picture of what is shown, or of the whole page, and gives its width and height."""
        data = base64.b64decode(self.shot(whole))
        with open(path, "wb") as file:
            file.write(data)
        return struct.unpack(">II", data[16:24])

    def wait_for_end(self):
        try:
            self.process.wait(20)
        except subprocess.TimeoutExpired:
            self.process.kill()
            self.process.wait(20)
        shutil.rmtree(self.room, ignore_errors=True)


# What Chromium is told that a key with control edits, as headless it doesn't know, and the codes of keys that have no letter.
EDITS = {"a": "selectAll", "c": "copy", "v": "paste"}
CODES = {"Enter": 13, "Tab": 9, "Escape": 27}


class Chromium(Browser):
    title, width = "Chromium", "64"

    def __init__(self, program="chromium"):
        super().__init__()
        to_it, from_us = os.pipe()
        to_us, from_it = os.pipe()

        def wire():
            # (3 and 4 are the pipe's places; by way of 13 and 14, as either end may lie there)
            os.dup2(to_it, 13)
            os.dup2(from_it, 14)
            os.dup2(13, 3)
            os.dup2(14, 4)

        flags = "--headless=new --no-sandbox --disable-gpu --no-first-run --disable-dev-shm-usage --disable-background-networking"
        words = [program, *flags.split(), f"--user-data-dir={self.room}", "--remote-debugging-pipe", "about:blank"]
        self.begin(words, preexec_fn=wire, close_fds=False)
        os.close(to_it)
        os.close(from_it)
        self.out, self.into = from_us, to_us
        self.rest, self.last, self.session, self.events = b"", 0, None, []
        target = next(it for it in self.call("Target.getTargets")["targetInfos"] if it["type"] == "page")
        self.session = self.call("Target.attachToTarget", targetId=target["targetId"], flatten=True)["sessionId"]
        for it in ("Page.enable", "Runtime.enable", "Log.enable", "Network.enable"):
            self.call(it)

    def call(self, method, **params):
        self.last += 1
        said = {"id": self.last, "method": method, "params": params}
        if self.session:
            said["sessionId"] = self.session
        text = json.dumps(said).encode() + b"\0"
        while text:
            text = text[os.write(self.out, text[:60000]) :]
        while True:
            answer = self.read()
            if answer.get("id") == self.last:
                if "error" in answer:
                    raise RuntimeError(answer["error"])
                return answer["result"]
            self.events.append(answer)

    def read(self):
        while b"\0" not in self.rest:
            more = os.read(self.into, 1 << 20)
            if not more:
                raise RuntimeError("the browser is gone")
            self.rest += more
        one, self.rest = self.rest.split(b"\0", 1)
        return json.loads(one)

    def resize(self, wide, high):
        self.call("Emulation.setDeviceMetricsOverride", width=wide, height=high, deviceScaleFactor=1, mobile=wide < 600)

    def visit(self, url):
        self.call("Page.navigate", url=url)

    def scheme(self, name):
        """Asks pages for light or dark colours."""
        self.call("Emulation.setEmulatedMedia", features=[{"name": "prefers-color-scheme", "value": name}])

    def js(self, text):
        got = self.call("Runtime.evaluate", expression=text, returnByValue=True, awaitPromise=True)
        if "exceptionDetails" in got:
            raise RuntimeError(json.dumps(got["exceptionDetails"])[:2000])
        return got["result"].get("value")

    def key(self, key, with_control=False):
        text = {"text": key} if len(key) == 1 and not with_control else {}
        if with_control and key in EDITS:
            text = {"commands": [EDITS[key]]}
        how = {"key": key, "code": key, "windowsVirtualKeyCode": CODES.get(key, 0), "modifiers": 2 if with_control else 0}
        self.call("Input.dispatchKeyEvent", type="keyDown", **how, **text)
        self.call("Input.dispatchKeyEvent", type="keyUp", **how)

    def click(self, selector):
        middle = """(it => { it.scrollIntoView({block: "nearest"}); const box = it.getBoundingClientRect();
            return [box.x + box.width / 2, box.y + box.height / 2] })(document.querySelector(%s))"""
        x, y = self.js(middle % json.dumps(selector))
        for kind in ("mousePressed", "mouseReleased"):
            self.call("Input.dispatchMouseEvent", type=kind, x=x, y=y, button="left", clickCount=1)

    def choose(self, selector, path):
        """Gives a file to a field that asks for one."""
        root = self.call("DOM.getDocument")["root"]["nodeId"]
        node = self.call("DOM.querySelector", nodeId=root, selector=selector)["nodeId"]
        self.call("DOM.setFileInputFiles", nodeId=node, files=[os.path.abspath(path)])

    def shot(self, whole=False):
        how = {}
        if whole:
            size = self.call("Page.getLayoutMetrics")["cssContentSize"]
            how = {"captureBeyondViewport": True, "clip": {**size, "scale": 1}}
        return self.call("Page.captureScreenshot", format="png", **how)["data"]

    def parts(self):
        """The roles and names of the page's parts, as a screen reader has them."""
        nodes = self.call("Accessibility.getFullAXTree")["nodes"]
        return [(it["role"]["value"].lower(), it.get("name", {}).get("value", "")) for it in nodes if not it["ignored"] and it.get("role")]

    def said(self):
        """What went wrong in the page, and what it fetched beyond files."""
        for event in self.events:
            params = event.get("params", {})
            if event.get("method") == "Runtime.exceptionThrown":
                yield json.dumps(params["exceptionDetails"])[:300]
            elif event.get("method") == "Log.entryAdded":
                yield params["entry"]["text"]
            elif event.get("method") == "Network.requestWillBeSent" and not params["request"]["url"].startswith(("file:", "about:", "blob:")):
                yield "it fetches " + params["request"]["url"]

    def end(self):
        try:
            self.session = None
            self.call("Browser.close")
        except (RuntimeError, OSError):
            pass
        self.wait_for_end()


def browsers():
    """The classes of the browsers that are installed."""
    from firefox import Firefox

    return [it for it, program in ((Chromium, "chromium"), (Firefox, "firefox-esr")) if shutil.which(program)]
