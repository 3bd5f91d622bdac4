"""A headless Chromium, driven by the DevTools protocol over a pipe: no driver and no port."""

import base64
import fcntl
import json
import os
import shutil
import signal
import subprocess
import tempfile
import time

FLAGS = ["--headless", "--remote-debugging-pipe", "--no-first-run", "--disable-gpu",
         "--disable-dev-shm-usage", "--disable-background-networking",
         "--disable-component-update", "--disable-sync", "--hide-scrollbars"]
KEYS = {"Enter": 13, "Escape": 27, "PageUp": 33, "PageDown": 34, "End": 35, "Home": 36,
        "ArrowLeft": 37, "ArrowUp": 38, "ArrowRight": 39, "ArrowDown": 40}
NAMES = ("chromium", "chromium-browser", "google-chrome")
DRAWN = "typeof times === 'object' && !!times.drawn"


def found():
    """The path of a browser, or None."""
    return next(filter(None, map(shutil.which, NAMES)), None)


def clean(room):
    """Removes a folder, to which a browser that ends may still write."""
    for _ in range(20):
        try:
            room.cleanup()
            return
        except OSError:
            time.sleep(0.1)


class Unavailable(Exception):
    """The browser doesn't start."""


class Page:
    """A page of a browser, which has `run`, `navigate`, `key`, and `press` for the mouse.

    The browser is a process with a group of its own and a folder, and ends with the page.
    """

    def __enter__(self):
        return self

    def __exit__(self, *_):
        try:
            os.killpg(self.process.pid, signal.SIGKILL)
        except ProcessLookupError:
            pass
        self.process.wait()
        clean(self.room)

    def wait(self, script, seconds=10):
        """Waits until an expression is true."""
        until = time.monotonic() + seconds
        while not self.run(script):
            if time.monotonic() > until:
                raise TimeoutError(f"not in {seconds} s: {script}")
            time.sleep(0.02)

    def open(self, path, fragment=""):
        """Opens a page, and waits until all is drawn."""
        self.navigate("about:blank")
        self.navigate(f"file://{os.path.realpath(path)}{fragment}")
        self.wait(DRAWN, 30)

    def type(self, text):
        """Types a text."""
        for letter in text:
            self.key(None, letter)

    def box(self, selector):
        """Where an element is in the window, after it is scrolled into view."""
        return self.run(f"""(() => {{
          const it = document.querySelector({json.dumps(selector)});
          it.scrollIntoView({{ block: 'center', behavior: 'instant' }});
          const b = it.getBoundingClientRect();
          return [b.x, b.y, b.width, b.height];
        }})()""")

    def place(self, selector, share):
        """A place in an element: the middle of its height, a share of its width."""
        x, y, width, height = self.box(selector)
        return x + share * width, y + height / 2

    def move(self, selector, share=0.5):
        """Moves the mouse over an element, to a share of its width."""
        self.press(*self.place(selector, share), is_click=False)

    def click(self, selector):
        """Clicks into the middle of an element."""
        self.press(*self.place(selector, 0.5), is_click=True)


class Browser(Page):
    """One page of a Chromium of its own. Answers come in order; events are kept."""

    def __init__(self, seconds=60):
        self.seconds, self.number, self.rest, self.events = seconds, 0, b"", []
        self.room = tempfile.TemporaryDirectory(prefix="browser-")
        self.session = None
        self.begin()
        try:
            targets = self.send("Target.getTargets")["targetInfos"]
            page = next(it["targetId"] for it in targets if it["type"] == "page")
            answer = self.send("Target.attachToTarget", targetId=page, flatten=True)
        except (EOFError, TimeoutError, BrokenPipeError, StopIteration) as error:
            self.__exit__()
            raise Unavailable(str(error)) from None
        self.session = answer["sessionId"]
        for domain in ("Page", "Runtime", "Network", "Log"):
            self.send(f"{domain}.enable")
        self.window(1400, 900)

    def begin(self):
        """Starts the browser, which reads from 3 and writes to 4."""
        (theirs, out), (into, ours) = os.pipe(), os.pipe()
        # none of the pipes may be at 3 or 4 before
        ends = [fcntl.fcntl(end, fcntl.F_DUPFD_CLOEXEC, 10) for end in (theirs, ours)]
        for end in (theirs, ours):
            os.close(end)
        words = [found(), *FLAGS, f"--user-data-dir={self.room.name}", "about:blank"]
        if os.geteuid() == 0:
            words.insert(1, "--no-sandbox")

        def place():
            os.setsid()
            os.dup2(ends[0], 3)
            os.dup2(ends[1], 4)

        quiet = {"stdin": subprocess.DEVNULL, "stdout": subprocess.DEVNULL,
                 "stderr": subprocess.DEVNULL}
        self.process = subprocess.Popen(words, preexec_fn=place, close_fds=False, **quiet)
        for end in ends:
            os.close(end)
        self.out, self.into = out, into
        os.set_blocking(into, False)

    def __exit__(self, *_):
        super().__exit__()
        os.close(self.out)
        os.close(self.into)

    def message(self, until):
        """The next message of the browser."""
        while b"\0" not in self.rest:
            if time.monotonic() > until:
                raise TimeoutError("the browser doesn't answer")
            try:
                more = os.read(self.into, 1 << 20)
            except BlockingIOError:
                time.sleep(0.002)
                continue
            if not more:
                raise EOFError("the browser has ended")
            self.rest += more
        text, _, self.rest = self.rest.partition(b"\0")
        return json.loads(text)

    def send(self, method, **params):
        """Calls a method of the DevTools protocol, and returns its result."""
        self.number += 1
        call = {"id": self.number, "method": method, "params": params}
        if self.session:
            call["sessionId"] = self.session
        data = json.dumps(call).encode() + b"\0"
        while data:
            data = data[os.write(self.out, data):]
        until = time.monotonic() + self.seconds
        while True:
            answer = self.message(until)
            if answer.get("id") != self.number:
                self.events.append(answer)
            elif "error" in answer:
                raise RuntimeError(f"{method}: {answer['error']['message']}")
            else:
                return answer["result"]

    def run(self, script):
        """The value of an expression of JavaScript in the page; a promise is awaited."""
        it = self.send("Runtime.evaluate", expression=script, awaitPromise=True, returnByValue=True)
        if "exceptionDetails" in it:
            thrown = it["exceptionDetails"].get("exception", {})
            raise RuntimeError(thrown.get("description", "an exception"))
        return it["result"].get("value")

    def navigate(self, url):
        """Opens an address."""
        self.send("Page.navigate", url=url)

    def key(self, name, text=None):
        """Presses a key as a user does."""
        code = {"key": name, "windowsVirtualKeyCode": KEYS.get(name, 0)}
        if text is not None:
            code = {"key": text, "text": text}
        if name == "Enter":
            code["text"] = "\r"
        self.send("Input.dispatchKeyEvent", type="keyDown", **code)
        code.pop("text", None)
        self.send("Input.dispatchKeyEvent", type="keyUp", **code)

    def press(self, x, y, is_click):
        """Moves the mouse to a place, and clicks there."""
        self.send("Input.dispatchMouseEvent", type="mouseMoved", x=x, y=y)
        for kind in ("mousePressed", "mouseReleased") if is_click else ():
            self.send("Input.dispatchMouseEvent", type=kind, x=x, y=y, button="left", clickCount=1)

    def window(self, width, height, dark=False, media=""):
        """Sets the size of the window, the theme of the system, and 'print' for paper."""
        self.send("Emulation.setDeviceMetricsOverride", width=width, height=height,
                  deviceScaleFactor=1, mobile=False)
        # (a smooth scroll would move what the mouse is about to click)
        features = [{"name": "prefers-color-scheme", "value": "dark" if dark else "light"},
                    {"name": "prefers-reduced-motion", "value": "reduce"}]
        self.send("Emulation.setEmulatedMedia", media=media, features=features)

    def picture(self, path, whole=False):
        """Writes a picture of the window, or of the whole page."""
        shot = self.send("Page.captureScreenshot", format="png", captureBeyondViewport=whole)
        with open(path, "wb") as file:
            file.write(base64.b64decode(shot["data"]))

    def paper(self):
        """The page as PDF."""
        return base64.b64decode(self.send("Page.printToPDF", printBackground=True)["data"])

    def complaints(self):
        """Errors that the page or the browser has logged, and what it asked of a network."""
        self.run("0")
        made = []
        for it in self.events:
            method, params = it.get("method"), it.get("params", {})
            if method == "Runtime.exceptionThrown":
                thrown = params["exceptionDetails"].get("exception", {})
                made.append(thrown.get("description", "an exception"))
            elif method == "Log.entryAdded" and params["entry"]["level"] == "error":
                made.append(params["entry"]["text"])
            elif method == "Network.requestWillBeSent":
                url = params["request"]["url"]
                if not url.startswith(("file:", "data:", "blob:", "about:")):
                    made.append(f"asked for {url}")
        return made
