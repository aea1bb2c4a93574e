"""Chromium without a window, driven through its pipe: it opens pages, and clicks and types as a reader would."""
import base64
import json
import os
import shutil
import signal
import subprocess
import tempfile
import threading
import time

CHROMIUM = shutil.which(os.environ.get("CHROMIUM", "chromium"))
OPTIONS = ["--headless", "--no-sandbox", "--disable-gpu", "--disable-dev-shm-usage", "--no-first-run",
           "--force-prefers-reduced-motion", "--remote-debugging-pipe"]
CODES = {"Enter": 13, "Escape": 27, "ArrowLeft": 37, "ArrowRight": 39, "Home": 36, "End": 35, " ": 32, "Tab": 9}
LONGEST, WHOLE = 120, 600  # seconds, of one wait and of the browser


class Browser:
    """One page in one browser. With `with`, the browser ends at the end."""

    def __init__(self):
        self.room = tempfile.TemporaryDirectory(ignore_cleanup_errors=True)
        theirs, self.to = os.pipe()
        self.of, answers = os.pipe()
        words = ["sh", "-c", f'exec "$@" 3<&{theirs} 4>&{answers}', "sh", CHROMIUM, *OPTIONS, f"--user-data-dir={self.room.name}"]
        streams = {"stdout": subprocess.DEVNULL, "stderr": subprocess.DEVNULL, "pass_fds": (theirs, answers)}
        self.process = subprocess.Popen(words, start_new_session=True, **streams)
        os.close(theirs)
        os.close(answers)
        self.timer = threading.Timer(WHOLE, self.process.kill)
        self.timer.start()
        self.answers, self.calls, self.session, self.events = os.fdopen(self.of, "rb"), 0, None, []
        self.tab()

    def __enter__(self):
        return self

    def __exit__(self, *_):
        self.timer.cancel()
        os.killpg(self.process.pid, signal.SIGKILL)  # the browser, and the processes that it has begun
        self.process.wait()
        os.close(self.to)
        self.answers.close()
        self.room.cleanup()

    def message(self):
        text = bytearray()
        while (byte := self.answers.read(1)) != b"\0":
            if not byte:
                raise RuntimeError("the browser has ended")
            text += byte
        return json.loads(text)

    def call(self, method, **parameters):
        self.calls += 1
        asked = {"id": self.calls, "method": method, "params": parameters}
        asked |= {"sessionId": self.session} if self.session else {}
        os.write(self.to, json.dumps(asked).encode() + b"\0")
        while (told := self.message()).get("id") != self.calls:
            self.events.append(told)
        if "error" in told:
            raise RuntimeError(f"{method}: {told['error']}")
        return told["result"]

    def tab(self):
        """Opens a tab, to which all calls go from then on, and returns the one before."""
        before, self.session = self.session, None
        target = self.call("Target.createTarget", url="about:blank")["targetId"]
        self.session = self.call("Target.attachToTarget", targetId=target, flatten=True)["sessionId"]
        for domain in ("Page", "Runtime", "Log"):
            self.call(f"{domain}.enable")
        return before

    def faults(self):
        """What went wrong in the page so far."""
        kinds = ("Runtime.exceptionThrown", "Log.entryAdded")
        return [json.dumps(it["params"])[:400] for it in self.events if it["method"] in kinds]

    def size(self, width, height, is_dark=False):
        metrics = {"width": width, "height": height, "deviceScaleFactor": 1, "mobile": False}
        self.call("Emulation.setDeviceMetricsOverride", **metrics)
        scheme = {"name": "prefers-color-scheme", "value": "dark" if is_dark else "light"}
        less = {"name": "prefers-reduced-motion", "value": "reduce"}
        self.call("Emulation.setEmulatedMedia", features=[scheme, less])

    def open(self, address):
        self.call("Page.navigate", url=address)
        self.until("document.readyState === 'complete' && location.href !== 'about:blank'")

    def value(self, expression):
        told = self.call("Runtime.evaluate", expression=expression, returnByValue=True, awaitPromise=True)
        if "exceptionDetails" in told:
            raise RuntimeError(f"{expression}: {told['exceptionDetails']}")
        return told["result"].get("value")

    def until(self, expression):
        ends = time.monotonic() + LONGEST
        while not self.value(expression):
            if time.monotonic() > ends:
                raise RuntimeError(f"never so: {expression}")
            time.sleep(0.02)

    def point(self, query):
        """Moves the mouse to the middle of the first element of this query, and returns where that is."""
        x, y = self.value(f"""(() => {{ const found = document.querySelector({json.dumps(query)});
            found.scrollIntoView({{ block: "nearest" }}); const box = found.getBoundingClientRect();
            return [box.x + box.width / 2, box.y + box.height / 2] }})()""")
        self.call("Input.dispatchMouseEvent", type="mouseMoved", x=x, y=y)
        return x, y

    def click(self, query):
        x, y = self.point(query)
        for kind in ("mousePressed", "mouseReleased"):
            self.call("Input.dispatchMouseEvent", type=kind, x=x, y=y, button="left", clickCount=1)

    def press(self, key, modifiers=0):
        text = {"text": key} if len(key) == 1 else {"text": "\r"} if key == "Enter" else {}
        self.call("Input.dispatchKeyEvent", type="keyDown", key=key, modifiers=modifiers,
                  windowsVirtualKeyCode=CODES.get(key, ord(key[0].upper())), **text)
        self.call("Input.dispatchKeyEvent", type="keyUp", key=key, modifiers=modifiers)

    def type(self, text):
        self.call("Input.insertText", text=text)

    def shoot(self, path):
        data = self.call("Page.captureScreenshot", format="png")["data"]
        with open(path, "wb") as file:
            file.write(base64.b64decode(data))
