"""A Chromium without a window, driven by the DevTools protocol over a pipe, for `tests/test_page.py`."""
import base64
import json
import os
import select
import shutil
import subprocess
import tempfile
import time

BROWSERS = ("chromium", "chromium-browser", "google-chrome")
FLAGS = [
    "--headless", "--no-sandbox", "--disable-gpu", "--hide-scrollbars", "--disable-dev-shm-usage", "--no-first-run",
    "--remote-debugging-pipe",
]
# The numbers that browsers give to keys, by the name of a key in the protocol.
KEYS = {
    "ArrowLeft": 37, "ArrowUp": 38, "ArrowRight": 39, "ArrowDown": 40, "Home": 36, "End": 35, "Escape": 27, "Tab": 9,
    "Enter": 13, " ": 32,
}


def found():
    """The path of a browser, or None."""
    return next(filter(None, map(shutil.which, BROWSERS)), None)


class Browser:
    """One page of a browser. Each call waits for its answer."""

    def __init__(self, path, seconds=60):
        self.seconds, self.number, self.rest, self.faults = seconds, 0, b"", []
        self.folder = tempfile.TemporaryDirectory(prefix="browser-", ignore_cleanup_errors=True)
        to_browser, self.write_end = os.pipe()
        self.read_end, from_browser = os.pipe()

        def as_three_and_four():
            # (each is moved away first, lest one be where the other has to go)
            high = [os.dup(to_browser), os.dup(from_browser)]
            os.dup2(high[0], 3)
            os.dup2(high[1], 4)

        words = [path, *FLAGS, f"--user-data-dir={self.folder.name}", "about:blank"]
        silent = dict.fromkeys(("stdin", "stdout", "stderr"), subprocess.DEVNULL)
        self.process = subprocess.Popen(words, close_fds=False, preexec_fn=as_three_and_four, **silent)
        os.close(to_browser)
        os.close(from_browser)
        self.session = None
        target = self.call("Target.getTargets")["targetInfos"]
        page = next(it["targetId"] for it in target if it["type"] == "page")
        self.session = self.call("Target.attachToTarget", targetId=page, flatten=True)["sessionId"]
        for domain in ("Page", "Runtime"):
            self.call(f"{domain}.enable")

    def __enter__(self):
        return self

    def __exit__(self, *_):
        self.process.terminate()
        self.process.wait()
        os.close(self.write_end)
        os.close(self.read_end)
        self.folder.cleanup()

    def message(self):
        end = time.monotonic() + self.seconds
        while b"\0" not in self.rest:
            if not select.select([self.read_end], [], [], max(0, end - time.monotonic()))[0]:
                raise TimeoutError(f"the browser does not answer within {self.seconds} seconds")
            got = os.read(self.read_end, 1 << 20)
            if not got:
                raise EOFError("the browser has ended")
            self.rest += got
        one, self.rest = self.rest.split(b"\0", 1)
        return json.loads(one)

    def until(self, is_it):
        """The first message that is the one; what a page reports of itself on the way is kept."""
        while True:
            message = self.message()
            if message.get("method") == "Runtime.exceptionThrown":
                self.faults.append(message["params"]["exceptionDetails"].get("exception", {}).get("description", "?"))
            if is_it(message):
                return message

    def call(self, method, **how):
        self.number += 1
        number, message = self.number, {"id": self.number, "method": method, "params": how}
        if self.session:
            message["sessionId"] = self.session
        os.write(self.write_end, json.dumps(message).encode() + b"\0")
        answer = self.until(lambda it: it.get("id") == number)
        if "error" in answer:
            raise RuntimeError(f"{method}: {answer['error']}")
        return answer["result"]

    def open(self, url):
        """Opens a page in place of the one that is there, and waits until it is loaded."""
        self.call("Page.navigate", url="about:blank")
        self.call("Page.navigate", url=url)
        while self.value("document.readyState + location.protocol") != "completefile:":
            time.sleep(0.02)

    def value(self, text):
        """The value of an expression in the page."""
        told = self.call("Runtime.evaluate", expression=text, returnByValue=True, awaitPromise=True)
        if "exceptionDetails" in told:
            raise RuntimeError(told["exceptionDetails"].get("exception", {}).get("description", text))
        return told["result"].get("value")

    def press(self, key, shift=False):
        """Presses a key as a person does, wherever the focus is."""
        code = KEYS.get(key, ord(key.upper()) if len(key) == 1 else 0)
        how = {"key": key, "windowsVirtualKeyCode": code, "modifiers": 8 if shift else 0}
        if len(key) == 1:
            how["text"] = key
        self.call("Input.dispatchKeyEvent", type="keyDown", **how)
        how.pop("text", None)
        self.call("Input.dispatchKeyEvent", type="keyUp", **how)

    def size(self, width, height=900, dark=False):
        self.call("Emulation.setDeviceMetricsOverride", width=width, height=height, deviceScaleFactor=1, mobile=False)
        scheme = {"name": "prefers-color-scheme", "value": "dark" if dark else "light"}
        self.call("Emulation.setEmulatedMedia", features=[scheme, {"name": "prefers-reduced-motion", "value": "reduce"}])

    def picture(self, whole=False):
        """The page as a PNG; the whole of it, or what is in the window."""
        told = self.call("Page.captureScreenshot", format="png", captureBeyondViewport=whole)
        return base64.b64decode(told["data"])
