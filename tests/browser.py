"""A headless Chromium, driven over its DevTools protocol: JSON over a web socket. Needs Debian's chromium alone."""
import base64
import json
import os
import shutil
import socket
import subprocess
import tempfile
import time
import urllib.request

CHROMIUM = os.environ.get("BROWSER", shutil.which("chromium"))  # empty: none is taken
LACKING = "there is no chromium (apt-get install chromium)"
OPTIONS = (
    "--headless=new",
    "--no-sandbox",
    "--disable-gpu",
    "--hide-scrollbars",
    "--no-first-run",
    "--disable-background-networking",
    "--disable-dev-shm-usage",
    "--disable-renderer-backgrounding",
    "--disable-backgrounding-occluded-windows",
    "--disable-background-timer-throttling",
    "--remote-debugging-port=0",
)
PIECE = 2000000  # characters of a text that one command takes
PATIENCE = 60  # seconds
# Keys that aren't their own text: their number, and the text they give.
KEYS = {
    "Enter": (13, "\r"),
    "Escape": (27, ""),
    "ArrowLeft": (37, ""),
    "ArrowUp": (38, ""),
    "ArrowRight": (39, ""),
    "ArrowDown": (40, ""),
}


class Fault(Exception):
    """What the page or the browser says to something that failed."""


def description(details):
    """What the protocol tells of an exception."""
    return details.get("exception", {}).get("description") or details["text"]


class WebSocket:
    """Texts to and from a server of web sockets."""

    def __init__(self, url):
        host, _, path = url.removeprefix("ws://").partition("/")
        name, _, port = host.partition(":")
        self.socket, self.bytes = socket.create_connection((name, int(port)), timeout=PATIENCE), b""
        head = (
            "Upgrade: websocket",
            "Connection: Upgrade",
            "Sec-WebSocket-Version: 13",
            f"Sec-WebSocket-Key: {base64.b64encode(os.urandom(16)).decode()}",
        )
        self.socket.sendall("\r\n".join([f"GET /{path} HTTP/1.1", f"Host: {host}", *head, "", ""]).encode())
        while b"\r\n\r\n" not in self.bytes:
            self.bytes += self.socket.recv(4096)
        self.bytes = self.bytes.partition(b"\r\n\r\n")[2]

    def send(self, text):
        data, mask = text.encode(), os.urandom(4)
        size = len(data)
        short = bytes([0x80 | size]) if size < 126 else b"\xfe" + size.to_bytes(2, "big") if size < 65536 else None
        length = short or b"\xff" + size.to_bytes(8, "big")
        whole = int.from_bytes(data, "big") ^ int.from_bytes((mask * (size // 4 + 1))[:size], "big")
        self.socket.sendall(b"\x81" + length + mask + whole.to_bytes(size, "big"))

    def take(self, count):
        while len(self.bytes) < count:
            more = self.socket.recv(1 << 20)
            if not more:
                raise Fault("the browser closed the connection")
            self.bytes += more
        taken, self.bytes = self.bytes[:count], self.bytes[count:]
        return taken

    def receive(self):
        """The next text; raises TimeoutError after the socket's patience."""
        text = b""
        while True:
            first, size = self.take(2)
            if size > 125:
                size = int.from_bytes(self.take(2 if size == 126 else 8), "big")
            text += self.take(size)
            if first & 0x80:
                return text.decode()

    def close(self):
        self.socket.close()


class Browser:
    """`with Browser() as browser:` has a page of its own, and ends the browser behind it."""

    def __init__(self, width=1280, height=800):
        self.folder, self.count, self.said = (
            tempfile.TemporaryDirectory(prefix="page-", ignore_cleanup_errors=True),
            0,
            [],
        )
        command = [
            CHROMIUM,
            *OPTIONS,
            f"--user-data-dir={self.folder.name}",
            f"--window-size={width},{height}",
            "about:blank",
        ]
        self.process = subprocess.Popen(command, stdout=subprocess.DEVNULL, stderr=subprocess.DEVNULL)
        try:
            self.socket = WebSocket(self.page_address())
            for name in ("Page", "Runtime", "Log"):
                self.do(f"{name}.enable")
            self.size(width, height)
        except BaseException:
            # also Ctrl-C: nobody has the browser yet who could close it
            self.process.kill()
            self.process.wait()
            raise

    def page_address(self):
        """Where the page's web socket is: the browser writes its port into a file, and lists its pages there."""
        name, end = os.path.join(self.folder.name, "DevToolsActivePort"), time.monotonic() + PATIENCE
        while time.monotonic() < end:
            try:
                with open(name, encoding="ascii") as it:
                    port = int(it.readline())
                with urllib.request.urlopen(f"http://127.0.0.1:{port}/json", timeout=PATIENCE) as it:
                    return next(page for page in json.load(it) if page["type"] == "page")["webSocketDebuggerUrl"]
            except (OSError, ValueError, StopIteration):
                time.sleep(0.1)
        raise Fault("the browser doesn't begin")

    def __enter__(self):
        return self

    def __exit__(self, *_):
        self.close()

    def close(self):
        try:
            self.do("Browser.close")
        except (OSError, Fault):
            self.process.kill()
        self.socket.close()
        self.process.wait(PATIENCE)
        self.folder.cleanup()

    def do(self, method, patience=PATIENCE, **given):
        """A command of the protocol, and its result; raises TimeoutError if none comes."""
        self.count += 1
        self.socket.send(json.dumps({"id": self.count, "method": method, "params": given}))
        self.socket.socket.settimeout(patience)
        while True:
            it = json.loads(self.socket.receive())
            if it.get("id") == self.count:
                if "error" in it:
                    raise Fault(it["error"]["message"])
                return it["result"]
            self.note(it)

    def note(self, it):
        """Keeps what an event says of errors."""
        if it.get("method") == "Runtime.exceptionThrown":
            self.said.append(description(it["params"]["exceptionDetails"]))
        elif it.get("method") == "Log.entryAdded" and it["params"]["entry"]["level"] == "error":
            self.said.append(it["params"]["entry"]["text"])

    def errors(self):
        """What the console had of errors since it was last asked."""
        said, self.said = self.said, []
        return said

    def open(self, url):
        """Opens a page, and waits until it is loaded."""
        mark = f"mark{time.monotonic_ns()}"
        self.ask(f"window.{mark} = true")
        self.do("Page.navigate", url=url)
        self.wait(f"!window.{mark} && document.readyState === 'complete'")

    def ask(self, expression, patience=PATIENCE):
        """The value of an expression in the page; a promise's, when it is there."""
        it = self.do("Runtime.evaluate", patience, expression=f"({expression})", returnByValue=True, awaitPromise=True)
        if "exceptionDetails" in it:
            raise Fault(f"{expression[:200]}: {description(it['exceptionDetails'])}")
        return it["result"].get("value")

    def give(self, name, text):
        """A long text as a variable of the page."""
        self.ask(f"window.{name} = ''")
        for at in range(0, len(text), PIECE):
            self.ask(f"(window.{name} += {json.dumps(text[at:at + PIECE])}, 0)")

    def wait(self, expression, seconds=PATIENCE):
        """The value of an expression as soon as it holds. Between two pages there is none to ask: it is asked again."""
        end = time.monotonic() + seconds
        while time.monotonic() < end:
            try:
                value = self.ask(expression, 5)
            except (Fault, TimeoutError):
                value = None
            if value:
                return value
            time.sleep(0.02)
        raise Fault(f"not in {seconds} s: {expression}")

    def frame(self):
        """Waits for two frames: what was asked for is drawn then."""
        return self.ask("new Promise(go => requestAnimationFrame(() => requestAnimationFrame(() => go(true))))")

    def size(self, width, height):
        self.do("Emulation.setDeviceMetricsOverride", width=width, height=height, deviceScaleFactor=1, mobile=False)

    def shot(self, name):
        with open(name, "wb") as it:
            it.write(base64.b64decode(self.do("Page.captureScreenshot", format="png")["data"]))

    def mouse(self, kind, x, y, **more):
        self.do("Input.dispatchMouseEvent", type=kind, x=x, y=y, **more)

    def click(self, x, y, **more):
        self.mouse("mousePressed", x, y, button="left", buttons=1, clickCount=1, **more)
        self.mouse("mouseReleased", x, y, button="left", clickCount=1, **more)

    def click_on(self, selector, text=""):
        """A click in the middle of the first element that a selector and a text name."""
        place = self.wait(
            f"""(() => {{ const all = [...document.querySelectorAll({json.dumps(selector)})];
            const it = all.find(it => it.textContent.includes({json.dumps(text)})); if (!it) return null;
            it.scrollIntoView({{ block: "nearest" }}); const box = it.getBoundingClientRect();
            return [box.left + box.width / 2, box.top + box.height / 2]; }})()"""
        )
        self.click(*place)

    def drag(self, x, y, to_x, to_y, **more):
        self.mouse("mousePressed", x, y, button="left", buttons=1, clickCount=1, **more)
        for k in range(1, 9):
            self.mouse("mouseMoved", x + (to_x - x) * k / 8, y + (to_y - y) * k / 8, button="left", buttons=1, **more)
        self.mouse("mouseReleased", to_x, to_y, button="left", clickCount=1, **more)

    def wheel(self, x, y, by):
        self.mouse("mouseWheel", x, y, deltaX=0, deltaY=by)

    def fingers(self, *steps):
        """Touches: the places of the fingers at each step; then they are lifted."""
        for step, places in enumerate([*steps, []]):
            kind = "touchEnd" if not places else "touchMove" if step else "touchStart"
            self.do(
                "Input.dispatchTouchEvent",
                type=kind,
                touchPoints=[{"x": x, "y": y, "id": i} for i, (x, y) in enumerate(places)],
            )

    def key(self, key, **more):
        number, text = KEYS.get(key, (ord(key[0].upper()), key))
        given = {"key": key, "windowsVirtualKeyCode": number, **({"text": text} if text else {}), **more}
        self.do("Input.dispatchKeyEvent", type="keyDown" if text else "rawKeyDown", **given)
        self.do("Input.dispatchKeyEvent", type="keyUp", key=key, windowsVirtualKeyCode=number)

    def type(self, text):
        self.do("Input.insertText", text=text)
