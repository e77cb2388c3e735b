"""Headless Chromium and Firefox with one page, driven as a user would, by Python's standard library alone: Chromium by its pipe of commands, Firefox by
its Marionette. Neither has a connection, and whatever address a page asks for beside its own file is kept."""

import base64
import json
import os
import select
import shutil
import socket
import subprocess
import time
from pathlib import Path

# How long a browser is waited for, which others may leave little of the machine.
SECONDS = 300


class Failed(Exception):
    """The browser did something else than it was told to."""


class Browser:
    """What both have in common."""

    def wait(self, condition, seconds=SECONDS):
        """Waits until the condition, an expression of JavaScript, holds."""
        end = time.monotonic() + seconds
        while not self.value(f"Boolean({condition})"):
            if time.monotonic() > end:
                raise Failed(f"after {seconds} seconds not: {condition}")
            time.sleep(0.02)

    def text(self, selector="body"):
        """The text of an element, as it is shown."""
        return self.value(f"document.querySelector({json.dumps(selector)})?.innerText ?? ''")

    def open(self, path):
        # (the page that was open before may answer for a moment)
        self.value("window.isLeft = true")
        self.go(Path(path).resolve().as_uri())
        self.wait("!window.isLeft && document.documentElement?.dataset.ready")

    def click(self, selector):
        self.value(f"document.querySelector({json.dumps(selector)}).click()")

    def kill(self):
        """Ends it at once."""
        self.child.kill()
        self.child.wait(SECONDS)

    def __enter__(self):
        return self

    def __exit__(self, kind, *_):
        try:
            if kind is None:
                self.close()
        finally:
            if self.child.poll() is None:
                self.kill()


class Chromium(Browser):
    """A headless Chromium."""

    name = "chromium"

    def __init__(self, folder):
        to, self.sink = os.pipe()
        self.source, back = os.pipe()

        def pipes():
            os.dup2(to, 3, inheritable=True)
            os.dup2(back, 4, inheritable=True)

        # Numbers above 4, so that neither is overwritten before it is copied.
        to, back = (os.dup(os.dup(os.dup(it))) for it in (to, back))
        words = ["chromium", "--headless", "--no-sandbox", "--disable-gpu", "--remote-debugging-pipe", f"--user-data-dir={folder}/chromium", "about:blank"]
        self.child = subprocess.Popen(words, preexec_fn=pipes, close_fds=False, stderr=subprocess.DEVNULL)
        self.count, self.rest, self.session, self.asked = 0, b"", None, []
        target = self.call("Target.createTarget", url="about:blank")["targetId"]
        self.session = self.call("Target.attachToTarget", targetId=target, flatten=True)["sessionId"]
        for domain in ("Page", "Network", "DOM", "Runtime", "Log"):
            self.call(f"{domain}.enable")
        self.call("Emulation.setScrollbarsHidden", hidden=True)
        self.call("Network.emulateNetworkConditions", offline=True, latency=0, downloadThroughput=-1, uploadThroughput=-1)

    def call(self, method, **fields):
        self.count += 1
        message = {"id": self.count, "method": method, "params": fields, **({"sessionId": self.session} if self.session else {})}
        os.write(self.sink, json.dumps(message).encode() + b"\0")
        while True:
            while b"\0" not in self.rest:
                if not select.select([self.source], [], [], SECONDS)[0]:
                    raise Failed(f"{method}: no answer for {SECONDS} seconds")
                self.rest += os.read(self.source, 1 << 16)
            head, _, self.rest = self.rest.partition(b"\0")
            answer = json.loads(head)
            self.note(answer)
            if answer.get("id") == self.count:
                if "error" in answer:
                    raise Failed(f"{method}: {answer['error']}")
                return answer["result"]

    def forget(self):
        self.asked.clear()

    def note(self, message):
        """Keeps what the page asked for, what it threw, and what its policy refused."""
        method, fields = message.get("method"), message.get("params", {})
        if method == "Network.requestWillBeSent" and not fields["request"]["url"].startswith(("file:", "about:")):
            self.asked.append(fields["request"]["url"][:200])
        if method == "Runtime.exceptionThrown":
            self.asked.append(json.dumps(fields["exceptionDetails"])[:500])
        if method == "Log.entryAdded" and fields["entry"]["level"] == "error":
            self.asked.append(fields["entry"]["text"][:300])

    def value(self, expression):
        done = self.call("Runtime.evaluate", expression=expression, awaitPromise=True, returnByValue=True)
        if "exceptionDetails" in done:
            raise Failed(f"{expression}: {json.dumps(done['exceptionDetails'])[:500]}")
        return done["result"].get("value")

    def go(self, url):
        self.call("Page.navigate", url=url)

    def choose(self, selector, paths):
        root = self.call("DOM.getDocument")["root"]["nodeId"]
        node = self.call("DOM.querySelector", nodeId=root, selector=selector)["nodeId"]
        self.call("DOM.setFileInputFiles", nodeId=node, files=[str(Path(path).resolve()) for path in paths])

    def drop(self, selector, paths):
        """Drops files on the middle of an element."""
        self.value(f"document.querySelector({json.dumps(selector)}).scrollIntoView()")
        x, y = self.value(f"(() => {{ const it = document.querySelector({json.dumps(selector)}).getBoundingClientRect(); return [it.x + it.width / 2, it.y + 20]; }})()")
        data = {"items": [], "files": [str(Path(path).resolve()) for path in paths], "dragOperationsMask": 1}
        for kind in ("dragEnter", "dragOver", "drop"):
            self.call("Input.dispatchDragEvent", type=kind, x=x, y=y, data=data)

    def press(self, key, code=0, text=None):
        for kind in ("keyDown", "keyUp"):
            self.call("Input.dispatchKeyEvent", type=kind, key=key, windowsVirtualKeyCode=code, **({"text": text} if text and kind == "keyDown" else {}))

    def shape(self, width, height=900, dark=False):
        self.call("Emulation.setDeviceMetricsOverride", width=width, height=height, deviceScaleFactor=1, mobile=False)
        self.call("Emulation.setEmulatedMedia", media="", features=[{"name": "prefers-color-scheme", "value": "dark" if dark else "light"}])

    def picture(self, path, width, dark=False, selector="html"):
        """Takes a picture of an element of the page, at a width of the window."""
        self.shape(width, dark=dark)
        time.sleep(0.3)
        x, y, wide, high = self.value(f"(() => {{ const it = document.querySelector({json.dumps(selector)}).getBoundingClientRect(); return [it.x + scrollX, it.y + scrollY, it.width, it.height]; }})()")
        clip = {"x": x, "y": y, "width": wide, "height": high, "scale": 1}
        Path(path).write_bytes(base64.b64decode(self.call("Page.captureScreenshot", format="png", clip=clip, captureBeyondViewport=True)["data"]))

    def print(self, path):
        """Prints the page."""
        Path(path).write_bytes(base64.b64decode(self.call("Page.printToPDF", preferCSSPageSize=False, paperWidth=8.27, paperHeight=11.69)["data"]))

    def close(self):
        self.call("Browser.close")
        self.child.wait(SECONDS)


class Firefox(Browser):
    """A headless Firefox."""

    name = "firefox-esr"
    # No connection: all that isn't on this machine goes to a proxy that isn't there. The port is one that is free, of which the profile tells.
    SETTINGS = {
        "marionette.port": 0, "network.proxy.type": 1, "network.proxy.http": "127.0.0.1", "network.proxy.http_port": 9, "network.proxy.ssl": "127.0.0.1", "network.proxy.ssl_port": 9,
        "network.proxy.allow_hijacking_localhost": True,
    }
    # Keeps what a page of a file asks for beside files, and each fault of a script or of the policy that is told of such a page.
    NOTING = """
        globalThis.asked = [];
        globalThis.noting = { observe(it) {
            const channel = it.QueryInterface(Ci.nsIHttpChannel), by = channel.loadInfo?.triggeringPrincipal?.spec ?? "";
            if (by.startsWith("file:")) asked.push(channel.URI.spec.slice(0, 200));
        } };
        globalThis.hearing = { observe(it) {
            if (it instanceof Ci.nsIScriptError && it.sourceName.startsWith("file:") && !(it.flags & Ci.nsIScriptError.warningFlag)) asked.push(it.errorMessage.slice(0, 300));
        } };
        Services.obs.addObserver(noting, "http-on-modify-request");
        Services.console.registerListener(hearing);
    """

    def __init__(self, folder):
        profile = Path(folder) / "firefox"
        profile.mkdir()
        (profile / "user.js").write_text("".join(f"user_pref({json.dumps(name)}, {json.dumps(value)});\n" for name, value in self.SETTINGS.items()))
        words = ["firefox-esr", "--headless", "--no-remote", "--marionette", "--remote-allow-system-access", "--profile", str(profile)]
        self.child = subprocess.Popen(words, stdout=subprocess.DEVNULL, stderr=subprocess.DEVNULL, env={**os.environ, "HOME": str(folder), "MOZ_HEADLESS": "1"})
        try:
            self.begin(profile)
        except BaseException:
            self.kill()
            raise

    def begin(self, profile):
        """Connects to the browser, and says how it is to behave."""
        self.stream, self.count = self.connect(profile / "MarionetteActivePort").makefile("rwb"), 0
        self.receive()
        self.call("WebDriver:NewSession", capabilities={"alwaysMatch": {"unhandledPromptBehavior": "dismiss"}})
        self.call("WebDriver:SetTimeouts", script=1000 * SECONDS, pageLoad=1000 * SECONDS)
        self.inside(self.NOTING)

    def connect(self, told):
        """The connection to the port that the browser tells in a file of its profile."""
        end = time.monotonic() + SECONDS
        while True:
            try:
                return socket.create_connection(("127.0.0.1", int(told.read_text())), timeout=SECONDS)
            except (OSError, ValueError):
                if time.monotonic() > end or self.child.poll() is not None:
                    raise
                time.sleep(0.1)

    def receive(self):
        size = b""
        while not size.endswith(b":"):
            size += self.read(1)
        return json.loads(self.read(int(size[:-1])))

    def read(self, count):
        """So many bytes of what the browser says."""
        found = self.stream.read(count)
        if len(found) < count:
            raise Failed("the browser has ended")
        return found

    def call(self, method, **fields):
        self.count += 1
        message = json.dumps([0, self.count, method, fields]).encode()
        self.stream.write(b"%d:%s" % (len(message), message))
        self.stream.flush()
        _, _, error, result = self.receive()
        if error:
            raise Failed(f"{method}: {json.dumps(error)[:500]}")
        return result

    def inside(self, script):
        """Runs a script with the rights of the browser itself, and answers what it does."""
        self.call("Marionette:SetContext", value="chrome")
        try:
            return self.call("WebDriver:ExecuteScript", script=script, args=[], newSandbox=False, sandbox="system")["value"]
        finally:
            self.call("Marionette:SetContext", value="content")

    @property
    def asked(self):
        return self.inside("return globalThis.asked")

    def forget(self):
        self.inside("Services.console.reset(); globalThis.asked.length = 0")

    def value(self, expression):
        return self.call("WebDriver:ExecuteScript", script=f"return ({expression})", args=[], newSandbox=False)["value"]

    def go(self, url):
        self.call("WebDriver:Navigate", url=url)

    def choose(self, selector, paths):
        found = self.call("WebDriver:FindElement", using="css selector", value=selector)["value"]
        self.call("WebDriver:ElementSendKeys", id=next(iter(found.values())), text="\n".join(str(Path(path).resolve()) for path in paths))

    def drop(self, selector, paths):
        """Drops files on an element: those that were chosen for a field that is there for that alone."""
        self.value("(() => { const it = document.createElement('input'); Object.assign(it, { id: 'dropped', type: 'file', multiple: true }); document.body.append(it); return 1; })()")
        self.choose("#dropped", paths)
        self.value(f"""(() => {{
            const from = document.querySelector("#dropped"), dataTransfer = new DataTransfer(), on = document.querySelector({json.dumps(selector)});
            for (const file of from.files) dataTransfer.items.add(file);
            from.remove();
            for (const kind of ["dragenter", "dragover", "drop"]) on.dispatchEvent(new DragEvent(kind, {{ bubbles: true, cancelable: true, dataTransfer }}));
            return 1;
        }})()""")

    def press(self, key, code=0, text=None):
        """Presses a key: of WebDriver's own letters for keys that write nothing, Tab is known alone."""
        letter = {"Tab": "\ue004"}.get(key, text or key)
        keys = [{"type": kind, "value": letter} for kind in ("keyDown", "keyUp")]
        self.call("WebDriver:PerformActions", actions=[{"type": "key", "id": "keys", "actions": keys}])

    def shape(self, width, height=900, dark=False):
        # (a window can't be as narrow as a page of it)
        wide = "".join(f"it.style.setProperty('{edge}', '{size}px'); " for kind, size in (("width", width), ("height", height)) for edge in (kind, f"min-{kind}", f"max-{kind}"))
        self.inside(f'Services.prefs.setIntPref("layout.css.prefers-color-scheme.content-override", {0 if dark else 1}); const it = gBrowser.selectedBrowser; {wide}')
        self.wait(f"innerWidth === {width}")

    def picture(self, path, width, dark=False, selector="html"):
        self.shape(width, dark=dark)
        time.sleep(0.3)
        found = self.call("WebDriver:FindElement", using="css selector", value=selector)["value"]
        which = {"full": True} if selector == "html" else {"id": next(iter(found.values())), "full": False}
        Path(path).write_bytes(base64.b64decode(self.call("WebDriver:TakeScreenshot", **which)["value"]))

    def print(self, path):
        """Prints the page."""
        Path(path).write_bytes(base64.b64decode(self.call("WebDriver:Print", page={"width": 21.0, "height": 29.7})["value"]))

    def close(self):
        self.call("Marionette:Quit", flags=["eForceQuit"])
        self.child.wait(SECONDS)


def is_there(browser):
    """Whether this browser is installed."""
    return shutil.which(browser.name) is not None
