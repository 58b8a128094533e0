"""A browser without a window, by its remote protocol over two pipes: Debian's chromium."""

import json
import os
import subprocess
import tempfile

PROGRAM = "chromium"
OPTIONS = ["--headless", "--no-sandbox", "--disable-gpu", "--hide-scrollbars", "--remote-debugging-pipe", "--window-size=1300,760"]


class Browser:
    """A browser with one page. What it reports of errors, requests and messages of the console is kept."""

    def __init__(self):
        self.folder = tempfile.TemporaryDirectory()
        to_read, self.to = os.pipe()
        self.come, to_write = os.pipe()
        words = [PROGRAM, *OPTIONS, f"--user-data-dir={self.folder.name}"]
        shell = ["sh", "-c", f'exec "$@" 3<&{to_read} 4>&{to_write}', "sh", *words]
        self.process = subprocess.Popen(shell, pass_fds=(to_read, to_write), stdin=subprocess.DEVNULL, stdout=subprocess.DEVNULL, stderr=subprocess.DEVNULL)
        os.close(to_read)
        os.close(to_write)
        self.rest, self.number, self.session, self.events = b"", 0, None, []
        target = self.call("Target.createTarget", url="about:blank")["targetId"]
        self.session = self.call("Target.attachToTarget", targetId=target, flatten=True)["sessionId"]
        for domain in ("Page", "Runtime", "Network", "Log"):
            self.call(f"{domain}.enable")

    def message(self):
        while b"\0" not in self.rest:
            came = os.read(self.come, 65_536)
            if not came:
                raise EOFError("the browser has ended")
            self.rest += came
        text, self.rest = self.rest.split(b"\0", 1)
        return json.loads(text)

    def call(self, method, **values):
        """What a method of the protocol answers."""
        self.number += 1
        message = {"id": self.number, "method": method, "params": values} | ({"sessionId": self.session} if self.session else {})
        os.write(self.to, json.dumps(message).encode() + b"\0")
        while True:
            came = self.message()
            if came.get("id") == self.number:
                if "error" in came:
                    raise ValueError(f"{method}: {came['error']}")
                return came["result"]
            self.events.append(came)

    def open(self, address):
        """Goes to a page, and waits until it is there."""
        self.events = []
        self.call("Page.navigate", url=address)
        while not any(it["method"] == "Page.loadEventFired" for it in self.events):
            self.events.append(self.message())

    def value(self, text):
        """What an expression of the page's is, once it is known."""
        came = self.call("Runtime.evaluate", expression=text, awaitPromise=True, returnByValue=True)
        if "exceptionDetails" in came:
            raise ValueError(came["exceptionDetails"].get("exception", came["exceptionDetails"]))
        return came["result"].get("value")

    def key(self, key, text=None, shift=False):
        """Presses a key and lets it go."""
        words = {"key": key, "modifiers": 8 if shift else 0}
        self.call("Input.dispatchKeyEvent", type="keyDown", **words, **({"text": text} if text else {}))
        self.call("Input.dispatchKeyEvent", type="keyUp", **words)

    def click(self, x, y):
        for kind in ("mousePressed", "mouseReleased"):
            self.call("Input.dispatchMouseEvent", type=kind, x=x, y=y, button="left", clickCount=1)

    def picture(self, file, width, height, dark=False):
        """Draws the page into a file."""
        import base64

        self.call("Emulation.setDeviceMetricsOverride", width=width, height=height, deviceScaleFactor=1, mobile=False)
        self.call("Emulation.setEmulatedMedia", features=[{"name": "prefers-color-scheme", "value": "dark" if dark else "light"}])
        self.value("new Promise(done => setTimeout(done, 300))")
        file.write_bytes(base64.b64decode(self.call("Page.captureScreenshot", format="png")["data"]))

    def faults(self):
        """What went wrong: exceptions, messages of the log, and requests beside that of the page."""
        found = [it["params"]["exceptionDetails"]["text"] for it in self.events if it["method"] == "Runtime.exceptionThrown"]
        found += [it["params"]["entry"]["text"] for it in self.events if it["method"] == "Log.entryAdded"]
        asked = [it["params"]["request"]["url"] for it in self.events if it["method"] == "Network.requestWillBeSent"]
        return found + [f"it asks for {it}" for it in asked[1:]]

    def end(self):
        self.process.terminate()
        self.process.wait()
        os.close(self.to)
        os.close(self.come)
        self.folder.cleanup()
