"""Chromium without a window, over its pipe for debugging: messages are JSON with a NUL behind. All tests share one."""
import atexit
import base64
import json
import os
import queue
import shutil
import signal
import subprocess
import threading
import time
from collections import Counter

from .common import WAIT, new_folder

CHROMIUM = shutil.which("chromium")
WORDS = ["--headless=new", "--no-sandbox", "--disable-gpu", "--disable-dev-shm-usage", "--no-first-run",
         "--hide-scrollbars", "--disable-background-networking", "--disable-component-update", "--lang=en-GB",
         "--disable-renderer-backgrounding", "--disable-backgrounding-occluded-windows",
         "--remote-debugging-pipe", "about:blank"]
# Put into a page, it holds back what the page asks for, or the replies, as window.holds says.
HELD = """(real => {
  window.held = [];
  const wait = () => new Promise(goes => window.held.push(goes));
  window.fetch = async (path, words) => {
    if (window.holds === 'requests') await wait();
    const answer = await real(path, words);
    if (window.holds === 'replies' && path === '/command') await wait();
    return answer;
  };
})(window.fetch)"""
starting = threading.Lock()
shared = None


def started(**settings):
    """A page of its own in the browser that all tests share, or None if Chromium is not installed or does not start."""
    global shared
    if not CHROMIUM:
        return None
    with starting:
        try:
            shared = shared or Chromium()
            return Browser(shared, **settings)
        except OSError:
            return None


class Navigated(LookupError):
    """The page was left meanwhile: what it was asked is not there yet, or is done."""


class Chromium:
    """The process: it is ended as the tests end."""

    def __init__(self):
        (read, self.out), (self.read, write) = os.pipe(), os.pipe()
        words = [CHROMIUM, f"--user-data-dir={new_folder()}", *WORDS]
        self.process = subprocess.Popen(["bash", "-c", f'exec "$@" 3<&{read} 4>&{write}', "chromium", *words],
                                        pass_fds=(read, write), start_new_session=True, stdin=subprocess.DEVNULL,
                                        stdout=subprocess.DEVNULL, stderr=subprocess.DEVNULL)
        os.close(read), os.close(write)
        self.count = 0
        self.writing = threading.Lock()
        self.waiting = {}
        self.pages = {}
        atexit.register(self.end)
        threading.Thread(target=self.listen, daemon=True).start()
        self.call("Browser.getVersion")

    def call(self, method, session=None, **params):
        """Has the browser do something; returns the result."""
        answer = queue.SimpleQueue()
        with self.writing:
            self.count += 1
            number, self.waiting[self.count] = self.count, answer
            message = {"id": number, "method": method, "params": params} | ({"sessionId": session} if session else {})
            os.write(self.out, json.dumps(message).encode() + b"\0")
        try:
            done = answer.get(timeout=WAIT)
        except queue.Empty:
            raise OSError("the browser has ended, or does not answer") from None
        if "navigated" in str(done.get("error")):
            raise Navigated(f"{method}: {done['error']}")
        if "error" in done:
            raise RuntimeError(f"{method}: {done['error']}")
        return done["result"]

    def listen(self):
        """Gives each answer to who waits for it, and each event to its page."""
        begun = b""
        while more := os.read(self.read, 1 << 20):
            *messages, begun = (begun + more).split(b"\0")
            for message in map(json.loads, messages):
                if "id" in message:
                    self.waiting.pop(message["id"]).put(message)
                elif page := self.pages.get(message.get("sessionId")):
                    page.take(message["method"], message["params"])

    def end(self):
        """Ends it, and all the processes that it has started."""
        try:
            os.killpg(self.process.pid, signal.SIGKILL)
        except ProcessLookupError:
            pass
        self.process.wait(WAIT)


class Browser:
    """One page, of a user of its own, who speaks a language.

    `faults` has the faults that its console shows, `asked` how often it asked for each address.
    """

    def __init__(self, chromium, language="en-GB"):
        self.chromium = chromium
        self.faults = []
        self.asked = Counter()
        self.session = None
        self.user = chromium.call("Target.createBrowserContext")["browserContextId"]
        target = chromium.call("Target.createTarget", url="about:blank", browserContextId=self.user)["targetId"]
        self.session = chromium.call("Target.attachToTarget", targetId=target, flatten=True)["sessionId"]
        chromium.pages[self.session] = self
        for domain in ("Page", "Runtime", "Log", "Network"):
            self.call(domain + ".enable")
        self.call("Emulation.setFocusEmulationEnabled", enabled=True)
        agent = self.run("navigator.userAgent")
        self.call("Emulation.setUserAgentOverride", userAgent=agent, acceptLanguage=language)

    def call(self, method, **params):
        return self.chromium.call(method, self.session, **params)

    def take(self, event, words):
        if event == "Runtime.exceptionThrown":
            self.faults.append(words["exceptionDetails"].get("exception", {}).get("description") or str(words))
        elif event == "Log.entryAdded" and words["entry"]["level"] == "error":
            self.faults.append(words["entry"]["text"] + " " + words["entry"].get("url", ""))
        elif event == "Network.requestWillBeSent":
            self.asked[words["request"]["url"]] += 1

    def run(self, script):
        """Evaluates an expression of the page; returns its value."""
        done = self.call("Runtime.evaluate", expression=script, awaitPromise=True, returnByValue=True)
        if "exceptionDetails" in done:
            raise RuntimeError(f"{script}: {done['exceptionDetails']}")
        return done["result"].get("value")

    def opens(self, address):
        self.call("Page.navigate", url=address)

    def presses(self, key, **more):
        """Presses a key. A page is scrolled by one alone that has its `text`."""
        for kind in ("keyDown" if "text" in more else "rawKeyDown", "keyUp"):
            self.call("Input.dispatchKeyEvent", type=kind, key=key, **more)

    def place(self, element, across=0.5):
        """The middle of an element, that part of its width from the left, as x and y, once it is in sight."""
        return self.run(f"(e => {{ e.scrollIntoView({{ block: 'center' }}); const r = e.getBoundingClientRect(); "
                        f"return [r.left + r.width * {across}, r.top + r.height / 2]; }})({element})")

    def touches(self, *points, pause=0.02, meanwhile=lambda: None, taken_away=False):
        """Has a finger come down at the first of these points, move through the others, and go, or be taken away."""
        for kind, (x, y) in zip(["touchStart"] + ["touchMove"] * len(points), points):
            self.call("Input.dispatchTouchEvent", type=kind, touchPoints=[{"x": x, "y": y}])
            time.sleep(pause)
        meanwhile()
        self.call("Input.dispatchTouchEvent", type="touchCancel" if taken_away else "touchEnd", touchPoints=[])

    def pinches(self, *pairs, pause=0.02):
        """Has two fingers come down at the first of these pairs of points, move through the others, and go."""
        for kind, pair in zip(["touchStart"] + ["touchMove"] * len(pairs), pairs):
            points = [{"x": x, "y": y, "id": number} for number, (x, y) in enumerate(pair)]
            self.call("Input.dispatchTouchEvent", type=kind, touchPoints=points)
            time.sleep(pause)
        self.call("Input.dispatchTouchEvent", type="touchEnd", touchPoints=[])

    def drags(self, *points):
        """Has the mouse press at the first of these points, move through the others, and let go."""
        for kind, (x, y) in zip(["mousePressed"] + ["mouseMoved"] * len(points), points):
            self.call("Input.dispatchMouseEvent", type=kind, x=x, y=y, button="left", buttons=1, clickCount=1)
        x, y = points[-1]
        self.call("Input.dispatchMouseEvent", type="mouseReleased", x=x, y=y, button="left", clickCount=1)

    def shows(self, width, height, phone=False, dark=False):
        """Sets how large its window is, and which colours its user likes."""
        size = {"width": width, "height": height, "deviceScaleFactor": 2 if phone else 1, "mobile": phone}
        self.call("Emulation.setDeviceMetricsOverride", **size)
        self.call("Emulation.setTouchEmulationEnabled", enabled=phone)
        features = [{"name": "prefers-color-scheme", "value": "dark" if dark else "light"}]
        self.call("Emulation.setEmulatedMedia", features=features)

    def picture(self, path, whole=False):
        data = self.call("Page.captureScreenshot", format="png", captureBeyondViewport=whole)["data"]
        with open(path, "wb") as file:
            file.write(base64.b64decode(data))

    def end(self):
        """Closes the page."""
        self.chromium.pages.pop(self.session)
        self.chromium.call("Target.disposeBrowserContext", browserContextId=self.user)
