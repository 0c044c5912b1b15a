"""A headless Chromium that is driven over a pipe, for the test of the page."""
import base64
import contextlib
import fcntl
import json
import os
import shutil
import subprocess
import tempfile
import time

NAMES = ("chromium", "chromium-browser", "google-chrome")
OPTIONS = (
    "--headless=new", "--remote-debugging-pipe", "--no-sandbox", "--no-first-run", "--disable-gpu",
    "--disable-dev-shm-usage", "--hide-scrollbars",
)
KEYS = {"ArrowLeft": 37, "ArrowUp": 38, "ArrowRight": 39, "ArrowDown": 40, "Enter": 13, "Home": 36, "End": 35}


def installed():
    """The path of a Chromium, or None."""
    return next(filter(None, map(shutil.which, NAMES)), None)


def _high(end):
    """The end of a pipe under a number that the browser's own 3 and 4 do not meet."""
    moved = fcntl.fcntl(end, fcntl.F_DUPFD, 20)
    os.close(end)
    return moved


class Browser:
    """One page of a browser."""

    def __init__(self, folder):
        to_browser, self._out = map(_high, os.pipe())
        self._in, from_browser = map(_high, os.pipe())
        words = [installed(), *OPTIONS, f"--user-data-dir={folder}", "about:blank"]
        redirected = f'exec "$@" 3<&{to_browser} 4>&{from_browser}'
        self._process = subprocess.Popen(
            ["bash", "-c", redirected, "bash", *words], pass_fds=(to_browser, from_browser),
            stdout=subprocess.DEVNULL, stderr=subprocess.DEVNULL)
        os.close(to_browser)
        os.close(from_browser)
        self._rest = b""
        self._number = 0
        self._session = None
        self.faults = []
        self._attach()

    def _attach(self):
        targets = self.call("Target.getTargets")["targetInfos"]
        page = next(target["targetId"] for target in targets if target["type"] == "page")
        self._session = self.call("Target.attachToTarget", targetId=page, flatten=True)["sessionId"]
        for domain in ("Page", "Runtime", "DOM", "Log"):
            self.call(f"{domain}.enable")

    def _message(self):
        while b"\0" not in self._rest:
            piece = os.read(self._in, 1 << 16)
            if not piece:
                raise RuntimeError("the browser ended")
            self._rest += piece
        text, _, self._rest = self._rest.partition(b"\0")
        return json.loads(text)

    def call(self, method, **parameters):
        """The result of a command of the browser's protocol."""
        self._number += 1
        message = {"id": self._number, "method": method, "params": parameters}
        if self._session:
            message["sessionId"] = self._session
        os.write(self._out, json.dumps(message).encode() + b"\0")
        while True:
            answer = self._message()
            if answer.get("method") == "Runtime.exceptionThrown":
                self.faults.append(answer["params"]["exceptionDetails"])
            if answer.get("id") == self._number:
                if "error" in answer:
                    raise RuntimeError(f"{method}: {answer['error']}")
                return answer["result"]

    def evaluate(self, expression):
        result = self.call("Runtime.evaluate", expression=expression, returnByValue=True, awaitPromise=True)
        if "exceptionDetails" in result:
            raise RuntimeError(f"{expression}: {result['exceptionDetails']}")
        return result["result"].get("value")

    def on(self, selector, statements):
        """What statements give for the first element of a selector, which they call `node`."""
        return self.evaluate(f"(node => {{ {statements} }})(document.querySelector({json.dumps(selector)}))")

    def wait(self, expression, seconds=30):
        """Waits until an expression of the page is true."""
        end = time.monotonic() + seconds
        while not self.evaluate(expression):
            if time.monotonic() > end:
                raise TimeoutError(f"waited in vain for {expression}")
            time.sleep(0.05)

    def show(self, place, width=1180, height=900, dark=False):
        self.call("Emulation.setDeviceMetricsOverride",
                  width=width, height=height, deviceScaleFactor=1, mobile=width < 600)
        self.dark(dark)
        self.call("Page.navigate", url=place)
        self.wait("document.readyState === 'complete'")

    def dark(self, is_dark):
        scheme = {"name": "prefers-color-scheme", "value": "dark" if is_dark else "light"}
        self.call("Emulation.setEmulatedMedia", features=[scheme])

    def _middle(self, selector):
        return self.on(selector, """
            node.scrollIntoView({ block: "nearest" });
            const { left, top, width, height } = node.getBoundingClientRect();
            return [left + width / 2, top + height / 2];""")

    def _mouse(self, kind, place):
        self.call("Input.dispatchMouseEvent", type=kind, x=place[0], y=place[1], button="left", buttons=1, clickCount=1)

    def click(self, selector):
        place = self._middle(selector)
        self._mouse("mousePressed", place)
        self._mouse("mouseReleased", place)

    def drag(self, start, end):
        start, end = self._middle(start), self._middle(end)
        self._mouse("mousePressed", start)
        for part in (0.3, 0.7, 1):
            self._mouse("mouseMoved", [a + part * (b - a) for a, b in zip(start, end)])
        self._mouse("mouseReleased", end)

    def touch(self, selector):
        x, y = self._middle(selector)
        self.call("Input.dispatchTouchEvent", type="touchStart", touchPoints=[{"x": x, "y": y}])
        self.call("Input.dispatchTouchEvent", type="touchEnd", touchPoints=[])

    def key(self, name):
        text = {"Enter": "\r"}.get(name, name if len(name) == 1 else "")
        code = KEYS.get(name, ord(name[0].upper()))
        pressed = {"key": name, "windowsVirtualKeyCode": code, "text": text}
        self.call("Input.dispatchKeyEvent", type="keyDown", **{word: value for word, value in pressed.items() if value})
        self.call("Input.dispatchKeyEvent", type="keyUp", key=name, windowsVirtualKeyCode=code)

    def write(self, selector, text):
        """Writes a text in place of what a field holds."""
        self.on(selector, "node.focus(); node.select();")
        self.call("Input.insertText", text=text)

    def choose(self, selector, path):
        """Chooses a file for a field."""
        root = self.call("DOM.getDocument")["root"]["nodeId"]
        node = self.call("DOM.querySelector", nodeId=root, selector=selector)["nodeId"]
        self.call("DOM.setFileInputFiles", nodeId=node, files=[os.path.abspath(path)])

    def picture(self, path, selector="body"):
        """Writes a picture of an element, with a margin of the page above it and beside it."""
        box = self.on(selector, """
            const { left, top, right, bottom } = node.getBoundingClientRect();
            const [x, y] = [Math.max(0, left + scrollX - 12), Math.max(0, top + scrollY - 12)];
            const width = Math.min(right + scrollX + 12, document.documentElement.scrollWidth) - x;
            return { x, y, width, height: bottom + scrollY - y, scale: 1 };""")
        taken = self.call("Page.captureScreenshot", format="png", captureBeyondViewport=True, clip=box)
        with open(path, "wb") as file:
            file.write(base64.b64decode(taken["data"]))

    def close(self):
        with contextlib.suppress(OSError, RuntimeError):
            self._session = None
            self.call("Browser.close")
        self._process.wait(10)
        os.close(self._in)
        os.close(self._out)


@contextlib.contextmanager
def running():
    folder = tempfile.mkdtemp()
    browser = Browser(folder)
    try:
        yield browser
    finally:
        browser.close()
        shutil.rmtree(folder, ignore_errors=True)
