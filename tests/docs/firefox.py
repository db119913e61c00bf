"""A headless Firefox, driven over Marionette with the standard library alone."""

import json
import os
import socket
import time

from browser import Browser

ELEMENT = "element-6066-11e4-a52e-4f735466cecf"
# Runs an expression in the page itself, by a script's element, which the page's policy lets run.
IN_PAGE = """const done = arguments[1], it = document.createElement("script");
    document.addEventListener("told", event => done(event.detail), { once: true });
    it.textContent = "Promise.resolve().then(() => (" + arguments[0] + ")).then(it => [it], error => [null, String(error)])"
        + ".then(it => document.dispatchEvent(new CustomEvent('told', { detail: JSON.stringify(it) })))";
    (document.head || document.documentElement).append(it);
    it.remove();"""
# What went wrong in pages, of the messages that the browser keeps.
MESSAGES = """return Services.console.getMessageArray().filter(it => it instanceof Ci.nsIScriptError && /^(file|blob):/.test(it.sourceName))
    .map(it => it.errorMessage)"""
KEYS = {"Enter": "\ue007", "Escape": "\ue00c", "ArrowLeft": "\ue012", "ArrowRight": "\ue014", "Backspace": "\ue003", "Tab": "\ue004"}


class Firefox(Browser):
    title, width = "Firefox", "32"

    def __init__(self, program="firefox-esr"):
        super().__init__()
        with open(f"{self.room}/user.js", "w", encoding="utf-8") as file:
            # (port 0: one that is free, which it writes down)
            file.write('user_pref("marionette.port", 0);\nuser_pref("browser.shell.checkDefaultBrowser", false);\n')
        words = [program, "--headless", "--marionette", "--remote-allow-system-access", "--no-remote", "--profile", self.room]
        self.begin(words, env={**os.environ, "HOME": self.room})
        self.last, self.rest = 0, b""
        self.socket = self.connected()
        self.receive()
        self.call("WebDriver:NewSession", capabilities={"alwaysMatch": {"timeouts": {"script": 600000}}})

    def connected(self):
        for _ in range(1200):
            try:
                with open(f"{self.room}/MarionetteActivePort", encoding="utf-8") as file:
                    return socket.create_connection(("127.0.0.1", int(file.read())))
            except (OSError, ValueError):
                time.sleep(0.1)
        raise RuntimeError("Firefox doesn't begin")

    def receive(self):
        while b":" not in self.rest:
            self.more()
        size, self.rest = self.rest.split(b":", 1)
        while len(self.rest) < int(size):
            self.more()
        text, self.rest = self.rest[: int(size)], self.rest[int(size) :]
        return json.loads(text)

    def more(self):
        got = self.socket.recv(1 << 20)
        if not got:
            raise RuntimeError("the browser is gone")
        self.rest += got

    def call(self, command, **params):
        self.last += 1
        text = json.dumps([0, self.last, command, params]).encode()
        self.socket.sendall(b"%d:%s" % (len(text), text))
        _, number, error, result = self.receive()
        if error or number != self.last:
            raise RuntimeError(json.dumps(error)[:2000])
        return result

    def in_browser(self, script, *args):
        """What a script gives that runs in the browser itself and not in a page."""
        self.call("Marionette:SetContext", value="chrome")
        try:
            return self.call("WebDriver:ExecuteScript", script=script, args=args)["value"]
        finally:
            self.call("Marionette:SetContext", value="content")

    def resize(self, wide, high):
        # (a window isn't made as narrow as a telephone)
        self.call("WebDriver:SetWindowRect", width=wide, height=high)

    def visit(self, url):
        self.call("WebDriver:Navigate", url=url)

    def scheme(self, name):
        """Asks pages for light or dark colours."""
        self.in_browser("Services.prefs.setIntPref('layout.css.prefers-color-scheme.content-override', arguments[0])", ["dark", "light"].index(name))

    def js(self, text):
        """The value of an expression, or what it promises, in the page itself."""
        told = json.loads(self.call("WebDriver:ExecuteAsyncScript", script=IN_PAGE, args=[text])["value"])
        if len(told) > 1:
            raise RuntimeError(told[1])
        return told[0]

    def key(self, key, with_control=False):
        letters = [KEYS.get(key, key)]
        if with_control:
            letters.insert(0, "\ue009")
        down = [{"type": "keyDown", "value": it} for it in letters]
        up = [{"type": "keyUp", "value": it} for it in reversed(letters)]
        self.call("WebDriver:PerformActions", actions=[{"type": "key", "id": "keys", "actions": down + up}])

    def found(self, selector):
        return self.call("WebDriver:FindElement", using="css selector", value=selector)["value"][ELEMENT]

    def click(self, selector):
        self.call("WebDriver:ElementClick", id=self.found(selector))

    def choose(self, selector, path):
        """Gives a file to a field that asks for one."""
        self.call("WebDriver:ElementSendKeys", id=self.found(selector), text=os.path.abspath(path))

    def shot(self, whole=False):
        return self.call("WebDriver:TakeScreenshot", full=whole)["value"]

    def parts(self):
        """The roles and names of what one can use in the page, as a screen reader has them."""
        found = []
        for it in self.call("WebDriver:FindElements", using="css selector", value="button, select, textarea, a, img, h1, h2, [role]"):
            words = {"id": it[ELEMENT]}
            if self.call("WebDriver:IsElementDisplayed", **words)["value"]:
                role, name = (self.call(f"WebDriver:GetComputed{what}", **words)["value"] for what in ("Role", "Label"))
                found.append((role, name))
        return found

    def said(self):
        """What went wrong in the page."""
        return self.in_browser(MESSAGES)

    def end(self):
        try:
            self.call("Marionette:Quit", flags=["eForceQuit"])
        except (RuntimeError, OSError, ValueError):
            pass
        self.wait_for_end()
        self.socket.close()
