"""Chromium without a window, by WebDriver over the standard library. Each browser has a driver of its own, on its own
port."""

import json
import os
import shutil
import signal
import subprocess
import tempfile
import time
import urllib.error
import urllib.request
from pathlib import Path

FLAGS = ("--headless=new", "--no-sandbox", "--disable-dev-shm-usage")
ELEMENT = "element-6066-11e4-a52e-4f735466cecf"  # WebDriver's key for an element
WAIT = 600  # seconds
LOCAL = urllib.request.build_opener(urllib.request.ProxyHandler({}))


class Failed(Exception):
    """What the driver or a script of the page says."""


class Browser:
    """A browser with one page. `with Browser(path) as browser:` opens a file and closes the browser."""

    def __init__(self, path, *flags, size=(1280, 900)):
        self.room = Path(tempfile.mkdtemp(prefix="revosti-page-"))
        self.base = f"http://127.0.0.1:{self.start_driver()}"
        options = {"args": [*FLAGS, f"--user-data-dir={self.room / 'profile'}", f"--window-size={size[0]},{size[1]}", *flags],
                   "prefs": {"download.default_directory": str(self.downloads),
                       "profile.default_content_setting_values.automatic_downloads": 1}}
        asked = {"browserName": "chrome", "goog:chromeOptions": options, "goog:loggingPrefs": {"browser": "ALL", "performance": "ALL"}}
        try:
            session = self.send("POST", "/session", {"capabilities": {"alwaysMatch": asked}})
            self.base += f"/session/{session['sessionId']}"
            self.send("POST", "/timeouts", {"script": 1000 * WAIT, "pageLoad": 1000 * WAIT})
            self.open(path)
        except BaseException:
            self.close()
            raise

    def open(self, path):
        """Opens a file."""
        self.url = Path(path).resolve().as_uri()
        self.send("POST", "/url", {"url": self.url})

    @property
    def downloads(self):
        """The folder that files are saved in."""
        folder = self.room / "downloads"
        folder.mkdir(exist_ok=True)
        return folder

    def start_driver(self):
        """Starts chromedriver on a free port, which it tells."""
        said = self.room / "driver.log"
        with said.open("w") as log:
            self.driver = subprocess.Popen(["chromedriver", "--port=0"], stdout=log, stderr=log, stdin=subprocess.DEVNULL,
                                           start_new_session=True)
        end = time.monotonic() + WAIT
        while time.monotonic() < end and self.driver.poll() is None:
            _, found, rest = said.read_text().partition("started successfully on port ")
            if found and "\n" in rest:
                return int(rest.split()[0].rstrip("."))
            time.sleep(0.02)
        raise Failed(f"chromedriver does not start: {said.read_text()}")

    def send(self, method, path, body=None):
        """One command, and its value."""
        data = None if body is None else json.dumps(body).encode()
        request = urllib.request.Request(self.base + path, data, {"Content-Type": "application/json"}, method=method)
        try:
            with LOCAL.open(request, timeout=2 * WAIT) as answer:
                return json.load(answer)["value"]
        except urllib.error.HTTPError as error:
            raise Failed(json.load(error)["value"]["message"]) from None

    def run(self, script, *given):
        """What a script returns. It may await; `given` are its arguments."""
        body = f"const done = arguments[arguments.length - 1]; (async (...given) => {{ {script} }})(...[...arguments].slice(0, -1))" \
               ".then((value) => done({ value }), (error) => done({ error: `${error}\\n${error.stack}` }));"
        answer = self.send("POST", "/execute/async", {"script": body, "args": list(given)})
        if "error" in answer:
            raise Failed(answer["error"])
        return answer.get("value")

    def find(self, selector):
        """An element, as the driver names it; to be handed to the functions below, and to scripts."""
        return self.send("POST", "/element", {"using": "css selector", "value": selector})

    def click(self, selector):
        """Clicks as a user does: the element has to be seen."""
        self.send("POST", f"/element/{self.find(selector)[ELEMENT]}/click", {})

    def type(self, selector, text):
        """Types into an element; of a file input the text is a path, and the file is chosen."""
        self.send("POST", f"/element/{self.find(selector)[ELEMENT]}/value", {"text": text})

    def clear(self, selector):
        """Empties a field."""
        self.send("POST", f"/element/{self.find(selector)[ELEMENT]}/clear", {})

    def act(self, *actions):
        """Performs actions of the keyboard or the pointer (WebDriver, Actions)."""
        self.send("POST", "/actions", {"actions": list(actions)})

    def resize(self, width, height):
        """Gives the window another size."""
        self.send("POST", "/window/rect", {"width": width, "height": height})

    def screenshot(self):
        """The page as seen, base64 of a PNG."""
        return self.send("GET", "/screenshot")

    def log(self):
        """What the browser has logged since the last call."""
        return self.send("POST", "/se/log", {"type": "browser"})

    def requests(self):
        """The addresses that the page has asked for since the last call, but for those that hold what they name."""
        found = [json.loads(entry["message"])["message"] for entry in self.send("POST", "/se/log", {"type": "performance"})]
        asked = [one["params"] for one in found if one["method"] == "Network.requestWillBeSent"]
        own = [one["request"]["url"] for one in asked if not one["documentURL"].startswith("chrome:")]  # the empty tab's
        return [url for url in own if not url.startswith(("data:", "blob:"))]

    def close(self):
        """Ends the browser and its driver, and removes what they left."""
        try:
            if "/session/" in self.base:
                self.send("DELETE", "")
        except (OSError, Failed):
            pass
        finally:
            self.driver.terminate()
            try:
                self.driver.wait(10)
            except subprocess.TimeoutExpired:
                os.killpg(self.driver.pid, signal.SIGKILL)
                self.driver.wait()
            shutil.rmtree(self.room, ignore_errors=True)

    def __enter__(self):
        return self

    def __exit__(self, *_):
        self.close()
