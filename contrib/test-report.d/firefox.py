"""A headless Firefox, driven by WebDriver BiDi over a socket: no driver and no package for it."""

import base64
import json
import os
import shutil
import socket
import struct
import subprocess
import tempfile
import time

from browser import Page, Unavailable

NAMES = ("firefox-esr", "firefox")
KEYS = {"Enter": "\ue007", "Escape": "\ue00c", "PageUp": "\ue00e", "PageDown": "\ue00f",
        "End": "\ue010", "Home": "\ue011", "ArrowLeft": "\ue012", "ArrowUp": "\ue013",
        "ArrowRight": "\ue014", "ArrowDown": "\ue015"}
# (a smooth scroll would move what the mouse is about to click)
SETTINGS = """user_pref("ui.prefersReducedMotion", 1);
user_pref("app.normandy.enabled", false);
user_pref("datareporting.policy.dataSubmissionEnabled", false);
user_pref("network.connectivity-service.enabled", false);
"""


def found():
    """The path of a Firefox, or None."""
    return next(filter(None, map(shutil.which, NAMES)), None)


class Socket:
    """A connection of WebSocket (RFC 6455) to a server of this machine, for texts."""

    def __init__(self, port, path, seconds):
        self.it = socket.create_connection(("127.0.0.1", port), seconds)
        key = base64.b64encode(os.urandom(16)).decode()
        words = (f"GET {path} HTTP/1.1", f"Host: 127.0.0.1:{port}", "Upgrade: websocket",
                 "Connection: Upgrade", f"Sec-WebSocket-Key: {key}", "Sec-WebSocket-Version: 13")
        self.it.sendall("".join(f"{it}\r\n" for it in (*words, "")).encode())
        self.rest = b""
        while b"\r\n\r\n" not in self.rest:
            self.more()
        head, _, self.rest = self.rest.partition(b"\r\n\r\n")
        if b" 101 " not in head.split(b"\r\n")[0]:
            raise EOFError("the browser takes no connection")

    def more(self):
        """Reads what has come."""
        data = self.it.recv(1 << 20)
        if not data:
            raise EOFError("the browser has ended")
        self.rest += data

    def take(self, count):
        """The next bytes."""
        while len(self.rest) < count:
            self.more()
        data, self.rest = self.rest[:count], self.rest[count:]
        return data

    def send(self, text):
        """Sends a text as one frame, under a mask, which a client must have."""
        data, mask = text.encode(), 0x5a
        size = (bytes([0x80 | len(data)]) if len(data) < 126 else
                struct.pack(">BH", 0xfe, len(data)) if len(data) < 1 << 16 else
                struct.pack(">BQ", 0xff, len(data)))
        self.it.sendall(b"\x81" + size + bytes(4 * [mask]) + bytes(it ^ mask for it in data))

    def receive(self):
        """The next text, of one frame or several."""
        made = b""
        while True:
            first, size = self.take(2)
            if size == 126:
                size, = struct.unpack(">H", self.take(2))
            elif size == 127:
                size, = struct.unpack(">Q", self.take(8))
            data, kind = self.take(size), first & 15
            if kind == 8:
                raise EOFError("the browser has ended the connection")
            if kind in (0, 1):   # (what isn't a text is a ping)
                made += data
                if first & 0x80:
                    return made.decode()


class Firefox(Page):
    """One page of a Firefox of its own. Events are kept."""

    def __init__(self, seconds=60):
        self.number, self.events = 0, []
        self.room = tempfile.TemporaryDirectory(prefix="firefox-")
        with open(f"{self.room.name}/user.js", "w", encoding="ascii") as file:
            file.write(SETTINGS)
        words = [found(), "--headless", "--no-remote", "--profile", self.room.name,
                 "--remote-debugging-port", "0", "about:blank"]
        quiet = {"stdin": subprocess.DEVNULL, "stdout": subprocess.DEVNULL,
                 "stderr": subprocess.DEVNULL}
        around = {**os.environ, "HOME": self.room.name, "MOZ_CRASHREPORTER_DISABLE": "1"}
        self.process = subprocess.Popen(words, start_new_session=True, env=around, **quiet)
        try:
            self.socket = Socket(self.port(seconds), "/session", seconds)
            self.send("session.new", capabilities={})
            tree = self.send("browsingContext.getTree")
        except (OSError, EOFError, RuntimeError) as error:
            self.__exit__()
            raise Unavailable(str(error)) from None
        self.context = {"context": tree["contexts"][0]["context"]}
        self.send("session.subscribe", events=["log.entryAdded", "network.beforeRequestSent"])
        self.window(1400, 900)

    def port(self, seconds):
        """The port that the browser has chosen, once it listens."""
        until, path = time.monotonic() + seconds, f"{self.room.name}/WebDriverBiDiServer.json"
        while True:
            try:
                with open(path, encoding="ascii") as file:
                    return json.load(file)["ws_port"]
            except (OSError, ValueError):
                if time.monotonic() > until or self.process.poll() is not None:
                    raise EOFError("it doesn't listen") from None
                time.sleep(0.1)

    def send(self, method, **params):
        """Calls a method of WebDriver BiDi, and returns its result."""
        self.number += 1
        self.socket.send(json.dumps({"id": self.number, "method": method, "params": params}))
        while True:
            answer = json.loads(self.socket.receive())
            if answer.get("id") != self.number:
                self.events.append(answer)
            elif answer["type"] == "error":
                raise RuntimeError(f"{method}: {answer['message']}")
            else:
                return answer["result"]

    def run(self, script):
        """The value of an expression of JavaScript in the page; a promise is awaited."""
        whole = f"(async () => JSON.stringify([await ({script})]))()"
        it = self.send("script.evaluate", expression=whole, awaitPromise=True, target=self.context)
        if it["type"] == "exception":
            raise RuntimeError(it["exceptionDetails"]["text"])
        return json.loads(it["result"]["value"])[0]

    def navigate(self, url):
        """Opens an address."""
        self.send("browsingContext.navigate", url=url, wait="interactive", **self.context)

    def act(self, kind, *actions, **more):
        """Does what a user does with a device."""
        device = {"type": kind, "id": kind, "actions": actions, **more}
        self.send("input.performActions", actions=[device], **self.context)

    def key(self, name, text=None):
        """Presses a key."""
        value = KEYS[name] if text is None else text
        self.act("key", {"type": "keyDown", "value": value}, {"type": "keyUp", "value": value})

    def press(self, x, y, is_click):
        """Moves the mouse to a place, and clicks there."""
        both = [{"type": "pointerDown", "button": 0}, {"type": "pointerUp", "button": 0}]
        self.act("pointer", {"type": "pointerMove", "x": int(x), "y": int(y)},
                 *(both if is_click else []), parameters={"pointerType": "mouse"})

    def window(self, width, height):
        """Sets the size of the window."""
        size = {"width": width, "height": height}
        self.send("browsingContext.setViewport", viewport=size, **self.context)

    def picture(self, path):
        """Writes a picture of the window."""
        shot = self.send("browsingContext.captureScreenshot", **self.context)
        with open(path, "wb") as file:
            file.write(base64.b64decode(shot["data"]))

    def complaints(self):
        """Errors that the page or the browser has logged, and what the page asked of a network."""
        self.run("0")
        made = []
        for it in self.events:
            params = it.get("params", {})
            if it.get("method") == "log.entryAdded" and params["level"] == "error":
                made.append(params["text"])
            elif it.get("method") == "network.beforeRequestSent":
                url = params["request"]["url"]
                if not url.startswith(("file:", "data:", "blob:", "about:")):
                    made.append(f"asked for {url}")
        return made
