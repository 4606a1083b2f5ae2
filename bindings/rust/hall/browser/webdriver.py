"""A browser, driven by W3C WebDriver through chromedriver, with the standard library alone."""

import base64
import http.client
import json
import os
import re
import shutil
import tempfile
import time

from service import NotReady, Service

BROWSERS = ("chromium", "chromium-browser", "google-chrome")
DRIVER = "chromedriver"
ELEMENT = "element-6066-11e4-a52e-4f735466cecf"
STARTED = re.compile(r"started successfully on port (\d+)")
# Seconds until the driver is ready, and for one request.
PATIENCE = 60
# Seconds that the driver gives a browser to start, after which it ends it, and for the request that waits for that.
BROWSER_START = 180
START_PATIENCE = BROWSER_START + PATIENCE


class Missing(Exception):
    """There is no browser, or no driver of it."""


class BrowserLost(Exception):
    """The browser or its driver did not start, or did not answer in time."""


class WebDriverError(Exception):
    """The driver refused a command."""


def find_browser():
    """The paths of the browser and its driver."""
    browser = next(filter(None, map(shutil.which, BROWSERS)), None)
    driver = shutil.which(DRIVER)
    if browser is None:
        raise Missing("there is no chromium")
    if driver is None:
        raise Missing("there is no chromedriver")
    return browser, driver


class Browser:
    """A headless browser with one window. It is ended with the `with` statement that it is opened by."""

    def __init__(self, paths):
        self.paths = paths
        self.driver = None
        self.session = None
        self.folder = None

    def __enter__(self):
        try:
            self.start_driver()
            self.start_session()
        except BaseException:
            self.__exit__()
            raise
        return self

    def __exit__(self, *_):
        try:
            if self.session:
                self.request("DELETE", f"/session/{self.session}")
        except (BrowserLost, WebDriverError):
            pass  # The driver is ended in any case, and the browser with it.
        finally:
            if self.driver:
                self.driver.end()
            if self.folder:
                remove(self.folder)

    def start_driver(self):
        try:
            self.driver = Service([self.paths[1], "--port=0"], STARTED, PATIENCE)
        except NotReady as error:
            raise BrowserLost(str(error)) from error
        self.port = int(self.driver.ready[1])

    def start_session(self):
        self.folder = tempfile.mkdtemp(prefix="hall-browser-")
        arguments = ["--headless=new", "--disable-gpu", "--hide-scrollbars", "--no-first-run",
                     "--disable-background-networking", "--disable-component-update",
                     f"--user-data-dir={self.folder}"]
        if os.geteuid() == 0:
            arguments += ["--no-sandbox", "--disable-dev-shm-usage"]
        options = {"binary": self.paths[0], "args": arguments, "browserStartupTimeout": BROWSER_START * 1000}
        capabilities = {
            "browserName": "chrome",
            "goog:chromeOptions": options,
            "goog:loggingPrefs": {"browser": "ALL", "performance": "ALL"},
        }
        wanted = {"capabilities": {"alwaysMatch": capabilities}}
        try:
            self.session = self.request("POST", "/session", wanted, START_PATIENCE)["sessionId"]
        except WebDriverError as error:
            raise BrowserLost(str(error)) from error

    def request(self, method, path, body=None, patience=PATIENCE):
        connection = http.client.HTTPConnection("127.0.0.1", self.port, timeout=patience)
        try:
            content = None if body is None else json.dumps(body)
            connection.request(method, path, content, {"Content-Type": "application/json"})
            answer = connection.getresponse()
            value = json.loads(answer.read())["value"]
        except (OSError, http.client.HTTPException) as error:
            raise BrowserLost(f"{method} {path}: {error}") from error
        finally:
            connection.close()
        if answer.status != 200:
            raise WebDriverError(f"{method} {path}: {value['error']}: {value['message']}")
        return value

    def command(self, path, body=None):
        return self.request("POST", f"/session/{self.session}/{path}", body or {})

    def open(self, address):
        self.command("url", {"url": address})

    def run(self, script, *arguments):
        """What a function's body answers in the page."""
        return self.command("execute/sync", {"script": script, "args": list(arguments)})

    def developer(self, method, **parameters):
        """A command of the browser's own protocol."""
        return self.command("goog/cdp/execute", {"cmd": method, "params": parameters})

    def resize(self, width, height, density=1, touch=False):
        """Gives the page so many CSS pixels, and each so many pixels of the screen a side."""
        self.developer("Emulation.setDeviceMetricsOverride", width=width, height=height,
                       deviceScaleFactor=density, mobile=False)
        self.developer("Emulation.setTouchEmulationEnabled", enabled=touch)

    def click(self, selector):
        found = self.command("element", {"using": "css selector", "value": selector})
        self.command(f"element/{found[ELEMENT]}/click")

    def act(self, *sources):
        """Lets pointers and keyboards act side by side, then lets go of all."""
        self.command("actions", {"actions": list(sources)})
        self.request("DELETE", f"/session/{self.session}/actions")

    def log(self, kind):
        """What was logged since the last call."""
        return self.command("se/log", {"type": kind})

    def screenshot(self):
        answer = self.request("GET", f"/session/{self.session}/screenshot")
        return base64.b64decode(answer)


def remove(folder):
    """Removes the browser's folder. Its last processes may write for a moment longer."""
    for _ in range(50):
        shutil.rmtree(folder, ignore_errors=True)
        if not os.path.exists(folder):
            return
        time.sleep(0.1)


def pointer(kind, actions, name=None):
    """A pointer of a kind: mouse, pen or touch."""
    return {"type": "pointer", "id": name or kind, "parameters": {"pointerType": kind},
            "actions": actions}


def keyboard(keys):
    """Keys that are pressed one after another."""
    strokes = [{"type": kind, "value": key} for key in keys for kind in ("keyDown", "keyUp")]
    return {"type": "key", "id": "keyboard", "actions": strokes}


def move(place, duration=0):
    x, y = place
    return {"type": "pointerMove", "duration": duration, "x": round(x), "y": round(y)}


def pause(duration=0):
    return {"type": "pause", "duration": duration}


DOWN = {"type": "pointerDown", "button": 0}
UP = {"type": "pointerUp", "button": 0}
