"""A browser of Chromium's kind without a window, which obeys by the DevTools protocol, over two pipes."""
import base64
import fcntl
import json
import os
import select
import shutil
import signal
import subprocess
from contextlib import contextmanager

from harness import Fault

NAMES = ("chromium", "chromium-browser", "google-chrome")
OPTIONS = (
    "--headless=new", "--disable-gpu", "--no-first-run", "--disable-extensions", "--disable-background-networking",
    "--disable-component-update", "--disable-sync", "--disable-frame-rate-limit", "--remote-debugging-pipe")
PATIENCE = 600  # seconds, after which a browser that does not answer is ended
# Resolves once two frames were drawn, so that the picture shows what the page is.
TWO_FRAMES = "new Promise(done => requestAnimationFrame(() => requestAnimationFrame(done)))"


def browser_name():
    """The browser that CHROMIUM names, or the first one that is installed."""
    named = os.environ.get("CHROMIUM")
    return next((name for name in ([named] if named else NAMES) if shutil.which(name)), None)


def needs_browser(suite, name):
    """Whether there is a browser. If not, the test is skipped."""
    if browser_name():
        return True
    suite.skip(name, f"no browser is installed ({', '.join(NAMES)}), and CHROMIUM names none")
    return False


@contextmanager
def running_browser(folder):
    """A browser that keeps its own files in this folder."""
    browser = Browser(browser_name(), folder)
    try:
        browser.attach()
        yield browser
    finally:
        browser.close()


class Browser:
    """Each command to the browser has one answer. Events, which arrive unasked, are kept until the next page is opened."""

    def __init__(self, name, folder):
        # (the browser reads at its descriptor 3 and writes at 4)
        ends = [fcntl.fcntl(end, fcntl.F_DUPFD_CLOEXEC, 10) for pipe in (os.pipe(), os.pipe()) for end in pipe]
        commands, self.commands, self.answers, answers = ends
        sandbox = ["--no-sandbox"] if os.geteuid() == 0 else []  # (the browser of root has no sandbox)
        with open(folder / "browser.log", "wb") as log:
            self.process = subprocess.Popen(
                ["bash", "-c", f'exec "$@" 3<&{commands} 4>&{answers}', "bash", name, *OPTIONS, *sandbox, f"--user-data-dir={folder}/profile",
                 "about:blank"], pass_fds=(commands, answers), stdin=subprocess.DEVNULL, stdout=log, stderr=log, start_new_session=True)
        os.close(commands)
        os.close(answers)
        self.received, self.number, self.events, self.session = b"", 0, [], None

    def attach(self):
        """Creates the one page in which all is opened."""
        target = self.ask("Target.createTarget", url="about:blank")["targetId"]
        self.session = self.ask("Target.attachToTarget", targetId=target, flatten=True)["sessionId"]
        for domain in ("Page", "Runtime", "Log"):
            self.ask(f"{domain}.enable")
        self.ask("Page.setLifecycleEventsEnabled", enabled=True)

    def read(self):
        while b"\0" not in self.received:
            if not select.select([self.answers], [], [], PATIENCE)[0]:
                raise Fault("the browser does not answer")
            more = os.read(self.answers, 1 << 20)
            if not more:
                raise Fault("the browser has ended")
            self.received += more
        message, _, self.received = self.received.partition(b"\0")
        return json.loads(message)

    def ask(self, method, **given):
        self.number += 1
        message = {"id": self.number, "method": method, "params": given}
        if self.session:
            message["sessionId"] = self.session
        os.write(self.commands, json.dumps(message).encode() + b"\0")
        while True:
            answer = self.read()
            if answer.get("id") == self.number:
                break
            self.events.append(answer)
        if "error" in answer:
            raise Fault(f"{method}: {answer['error']['message']}")
        return answer["result"]

    def evaluate(self, expression):
        """The value of an expression of JavaScript in the page, or of the promise that it is."""
        answer = self.ask("Runtime.evaluate", expression=expression, awaitPromise=True, returnByValue=True)
        if "exceptionDetails" in answer:
            raise Fault("the page cannot be read: " + answer["exceptionDetails"].get("exception", {}).get("description", "?"))
        return answer["result"].get("value")

    def show(self, width, height, mode):
        """Sets the size of the window, the mode (light or dark), and that nothing moves slowly."""
        self.ask("Emulation.setDeviceMetricsOverride", width=width, height=height, deviceScaleFactor=1, mobile=False)
        wishes = {"prefers-color-scheme": mode, "prefers-reduced-motion": "reduce"}
        self.ask("Emulation.setEmulatedMedia", features=[{"name": name, "value": value} for name, value in wishes.items()])

    def open(self, file):
        """Opens a page, and waits until it is loaded."""
        self.events.clear()
        answer = self.ask("Page.navigate", url=file.as_uri())
        if "errorText" in answer:
            raise Fault(f"{file} cannot be opened: {answer['errorText']}")
        while not any(self.is_loaded(event, answer["loaderId"]) for event in self.events):
            self.events.append(self.read())

    @staticmethod
    def is_loaded(event, loader):
        given = event.get("params", {})
        return event.get("method") == "Page.lifecycleEvent" and given["name"] == "load" and given["loaderId"] == loader

    def picture(self):
        """A screenshot as PNG, once the page is drawn."""
        self.evaluate(TWO_FRAMES)
        return base64.b64decode(self.ask("Page.captureScreenshot", format="png")["data"])

    def complaints(self):
        """What the page has written to the console, and its exceptions."""
        return [text for text in map(complaint, self.events) if text]

    def close(self):
        """Ends the browser and all that it started."""
        try:
            self.session = None
            self.ask("Browser.close")
            self.process.wait(20)
        except (Fault, OSError, subprocess.TimeoutExpired):
            pass
        try:
            os.killpg(self.process.pid, signal.SIGKILL)
        except ProcessLookupError:
            pass
        self.process.wait()
        os.close(self.commands)
        os.close(self.answers)


def complaint(event):
    given = event.get("params", {})
    if event.get("method") == "Runtime.exceptionThrown":
        details = given["exceptionDetails"]
        return "exception: " + details.get("exception", {}).get("description", details["text"])
    if event.get("method") == "Runtime.consoleAPICalled":
        return "console: " + " ".join(str(part.get("value", part.get("description"))) for part in given["args"])
    return "console: " + given["entry"]["text"] if event.get("method") == "Log.entryAdded" else ""
