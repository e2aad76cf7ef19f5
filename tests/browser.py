"""A browser without a window, driven over a pipe: it opens a file at some width, with scripts off, and says what it laid out and asked for."""
import base64
import fcntl
import json
import os
import select
import shutil
import subprocess
import tempfile

NAMES = ("chromium", "chromium-browser", "google-chrome", "google-chrome-stable", "chrome")
OPTIONS = ("--headless=new", "--no-sandbox", "--disable-gpu", "--no-first-run", "--disable-extensions", "--disable-background-networking",
           "--disable-component-update", "--remote-debugging-pipe")
LEAST_DESCRIPTOR = 10       # the pipes are made above the two descriptors that the browser wants them at
COMPLAINTS = ("Log.entryAdded", "Runtime.exceptionThrown", "Runtime.consoleAPICalled")
START = 'exec "$0" "$@" 3<&{} 4>&{}'
SECONDS = 30                # to wait for an answer
PHONE = 600                 # what is narrower, in pixels, is one


def found():
    """The path of a browser: what CHROMIUM says, or one of the usual names; None where there is none."""
    return next(filter(None, map(shutil.which, filter(None, (os.environ.get("CHROMIUM"), *NAMES)))), None)


def pipe():
    """The two ends of a pipe, at high descriptors."""
    ends = os.pipe()
    raised = [fcntl.fcntl(end, fcntl.F_DUPFD, LEAST_DESCRIPTOR) for end in ends]
    for end in ends:
        os.close(end)
    return raised


class Browser:
    """A running browser with one page."""

    def __init__(self, path):
        self.folder = tempfile.TemporaryDirectory()
        (theirs_in, self.out), (self.coming, theirs_out) = pipe(), pipe()
        words = [path, *OPTIONS, f"--user-data-dir={self.folder.name}", "about:blank"]
        self.process = subprocess.Popen(["bash", "-c", START.format(theirs_in, theirs_out), *words], pass_fds=(theirs_in, theirs_out),
                                        stdout=subprocess.DEVNULL, stderr=subprocess.DEVNULL)
        os.close(theirs_in)
        os.close(theirs_out)
        self.number, self.waiting, self.events, self.session = 0, b"", [], None
        target = self.call("Target.createTarget", url="about:blank")["targetId"]
        self.session = self.call("Target.attachToTarget", targetId=target, flatten=True)["sessionId"]
        for part in ("Page", "Network", "Log", "Runtime"):
            self.call(f"{part}.enable")
        self.call("Emulation.setScriptExecutionDisabled", value=True)

    def close(self):
        self.session = None
        self.call("Browser.close")
        self.process.wait(SECONDS)
        os.close(self.out)
        os.close(self.coming)
        self.folder.cleanup()

    def call(self, method, **given):
        """What the browser answers to a command; events that come before it are kept."""
        self.number += 1
        message = {"id": self.number, "method": method, "params": given} | ({"sessionId": self.session} if self.session else {})
        os.write(self.out, json.dumps(message).encode() + b"\0")
        return self.until(lambda answer: answer.get("id") == self.number)["result"]

    def until(self, wanted):
        """The first message that is wanted; others are kept as events."""
        while not wanted(message := self.message()):
            self.events.append(message)
        return message

    def message(self):
        while b"\0" not in self.waiting:
            self.waiting += self.arriving()
        text, _, self.waiting = self.waiting.partition(b"\0")
        return json.loads(text)

    def arriving(self):
        if not select.select([self.coming], [], [], SECONDS)[0]:
            raise TimeoutError("the browser does not answer")
        found = os.read(self.coming, 1 << 20)
        if not found:
            raise ConnectionError("the browser has ended")
        return found

    def open(self, path, width, height=900):
        """Opens a file at so many pixels; a narrow one is a phone."""
        self.call("Emulation.setEmulatedMedia", media="")
        self.call("Emulation.setDeviceMetricsOverride", width=width, height=height, deviceScaleFactor=1, mobile=width < PHONE)
        self.events.clear()
        self.call("Page.navigate", url=path.absolute().as_uri())
        if not any(event.get("method") == "Page.loadEventFired" for event in self.events):
            self.until(lambda message: message.get("method") == "Page.loadEventFired")

    def requests(self):
        """The addresses that were asked for since the file was opened."""
        return [event["params"]["request"]["url"] for event in self.events if event.get("method") == "Network.requestWillBeSent"]

    def complaints(self):
        """What the browser says of the page in its console."""
        self.value("0")
        return [event["params"] for event in self.events if event.get("method") in COMPLAINTS]

    def value(self, expression):
        """What an expression comes to in the page, as plain values."""
        answer = self.call("Runtime.evaluate", expression=expression, returnByValue=True)
        if "exceptionDetails" in answer:
            raise ValueError(answer["exceptionDetails"])
        return answer["result"].get("value")

    def on_paper(self, width):
        """Lays the page out as for print, at so many pixels, until the next file is opened."""
        self.call("Emulation.setDeviceMetricsOverride", width=width, height=width, deviceScaleFactor=1, mobile=False)
        self.call("Emulation.setEmulatedMedia", media="print")

    def picture(self):
        """The whole page as PNG."""
        size = self.call("Page.getLayoutMetrics")["cssContentSize"]
        return base64.b64decode(self.call("Page.captureScreenshot", captureBeyondViewport=True, clip={**size, "x": 0, "y": 0, "scale": 1})["data"])

    def printed(self):
        """The page on A4, as PDF."""
        return base64.b64decode(self.call("Page.printToPDF", printBackground=True, preferCSSPageSize=True)["data"])
