"""A headless browser, driven: Debian's chromium by its chromedriver, WebDriver over HTTP, and firefox-esr by the same commands over its own connection. For tools/web-test."""
import base64
import json
import re
import shutil
import socket
import subprocess
import tempfile
import time
import urllib.error
import urllib.request
from pathlib import Path

ELEMENT = "element-6066-11e4-a52e-4f735466cecf"
KEYS = {"Tab": "\ue004", "Enter": "\ue007", "Shift": "\ue008", "Control": "\ue009", "Escape": "\ue00c", "Space": " ", "End": "\ue010", "Home": "\ue011"}
KEYS |= {"ArrowLeft": "\ue012", "ArrowUp": "\ue013", "ArrowRight": "\ue014", "ArrowDown": "\ue015"}
PATIENCE = 300  # seconds; beside a gate a browser is slow
# As root, as the gate runs, Chromium has no sandbox; in a container its shared memory is small.
OPTIONS = ("--headless=new", "--no-sandbox", "--disable-dev-shm-usage", "--disable-gpu", "--force-color-profile=srgb", "--window-size=1280,1000")


class Refused(Exception):
    """What the driver says where it cannot do as asked."""


class Browser:
    """What both browsers do. Each has the commands of WebDriver by name: `do`, with an element where it is about one."""

    def __enter__(self):
        return self

    def patient(self):
        self.do("SetTimeouts", {"script": 1000 * PATIENCE, "pageLoad": 1000 * PATIENCE})

    def open(self, address):
        self.do("Navigate", {"url": address})

    def run(self, script, *arguments):
        return self.do("ExecuteScript", {"script": script, "args": list(arguments)})

    def run_async(self, script, *arguments):
        """The script calls its last argument with its answer."""
        return self.do("ExecuteAsyncScript", {"script": script, "args": list(arguments)})

    def find(self, selector):
        return self.do("FindElement", {"using": "css selector", "value": selector})[ELEMENT]

    def find_all(self, selector):
        return [each[ELEMENT] for each in self.do("FindElements", {"using": "css selector", "value": selector})]

    def keys_to(self, selector, text):
        """Types into an element; into a file input, the path of a file."""
        self.do("ElementSendKeys", {"text": text}, self.find(selector))

    def click(self, selector):
        self.do("ElementClick", {}, self.find(selector))

    def press(self, *names, held=None):
        """Presses keys one after another, on whatever has the focus."""
        actions = [{"type": "keyDown", "value": KEYS[held]}] if held else []
        for name in names:
            key = KEYS.get(name, name)
            actions += [{"type": "keyDown", "value": key}, {"type": "keyUp", "value": key}]
        actions += [{"type": "keyUp", "value": KEYS[held]}] if held else []
        self.do("PerformActions", {"actions": [{"type": "key", "id": "keyboard", "actions": actions}]})

    def named(self, element):
        """The role and the name of an element, as a screen reader gets them."""
        return self.do("GetComputedRole", {}, element), self.do("GetComputedLabel", {}, element)

    def printed(self):
        """The page on paper, as PDF."""
        return base64.b64decode(self.do("Print", {"page": {"width": 21.0, "height": 29.7}}))


class Chromium(Browser):
    """A session. Ends the driver, and with it the browser, when it is left."""

    # Where the commands lie in WebDriver over HTTP.
    PATHS = {"Navigate": "/url", "ExecuteScript": "/execute/sync", "ExecuteAsyncScript": "/execute/async", "FindElement": "/element", "FindElements": "/elements", "PerformActions": "/actions", "Print": "/print", "SetTimeouts": "/timeouts"}
    OF_ELEMENTS = {"ElementSendKeys": "/value", "ElementClick": "/click", "GetComputedRole": "/computedrole", "GetComputedLabel": "/computedlabel"}

    @staticmethod
    def at_hand():
        return shutil.which("chromedriver") is not None and shutil.which("chromium") is not None

    def __init__(self):
        self.profile = tempfile.TemporaryDirectory(prefix="web-test-")
        self.driver = subprocess.Popen([shutil.which("chromedriver"), "--port=0"], stdout=subprocess.PIPE, stderr=subprocess.DEVNULL, text=True)
        port = None
        while port is None:
            line = self.driver.stdout.readline()
            if not line:
                raise Refused("chromedriver ended before it began")
            port = re.search(r"started successfully on port (\d+)", line)
        self.base = f"http://127.0.0.1:{port.group(1)}/session"
        chrome = {"binary": shutil.which("chromium"), "args": [*OPTIONS, f"--user-data-dir={self.profile.name}"]}
        made = self.send("POST", "", {"capabilities": {"alwaysMatch": {"browserName": "chrome", "goog:chromeOptions": chrome}}})
        self.base += "/" + made["sessionId"]
        self.version = f"Chromium {made['capabilities']['browserVersion']}"
        self.patient()

    def __exit__(self, *_):
        try:
            self.send("DELETE", "")
        except (Refused, OSError):
            pass
        self.driver.terminate()
        self.driver.wait()
        self.profile.cleanup()

    def send(self, method, path, body=None):
        data = None if method != "POST" else json.dumps(body or {}).encode()
        request = urllib.request.Request(self.base + path, data, {"Content-Type": "application/json"}, method=method)
        try:
            with urllib.request.urlopen(request, timeout=PATIENCE) as answer:
                return json.load(answer)["value"]
        except urllib.error.HTTPError as fault:
            raise Refused(json.load(fault)["value"]["message"]) from fault

    def do(self, name, body, element=None):
        if element is None:
            return self.send("POST", self.PATHS[name], body)
        return self.send("GET" if name.startswith("Get") else "POST", f"/element/{element}{self.OF_ELEMENTS[name]}", body)

    def protocol(self, command, **parameters):
        """A command of Chromium's own protocol."""
        return self.send("POST", "/goog/cdp/execute", {"cmd": command, "params": parameters})

    def sized(self, width, height):
        self.protocol("Emulation.setDeviceMetricsOverride", width=width, height=height, deviceScaleFactor=1, mobile=False)

    def coloured(self, scheme):
        self.protocol("Emulation.setEmulatedMedia", features=[{"name": "prefers-color-scheme", "value": scheme}])

    def picture(self, path):
        """The whole page as a picture."""
        shot = self.protocol("Page.captureScreenshot", captureBeyondViewport=True)["data"]
        path.write_bytes(base64.b64decode(shot))


class Firefox(Browser):
    """A session with Firefox itself, which takes the commands of WebDriver on a connection of its own, each as its length, a colon and JSON."""

    @staticmethod
    def at_hand():
        return shutil.which("firefox-esr") is not None

    def __init__(self):
        self.profile = tempfile.TemporaryDirectory(prefix="web-test-")
        room = Path(self.profile.name)
        (room / "user.js").write_text('user_pref("marionette.port", 0);\nuser_pref("browser.shell.checkDefaultBrowser", false);\n')
        command = [shutil.which("firefox-esr"), "--headless", "--marionette", "--no-remote", "--width", "1280", "--height", "1000", "--profile", room]
        self.driver = subprocess.Popen(command, stdout=subprocess.DEVNULL, stderr=subprocess.DEVNULL)
        port, began = room / "MarionetteActivePort", time.time()
        while not (port.is_file() and port.read_text()):
            if self.driver.poll() is not None or time.time() - began > PATIENCE:
                raise Refused("Firefox ended before it began")
            time.sleep(0.1)
        self.line, self.held, self.count = socket.create_connection(("127.0.0.1", int(port.read_text())), PATIENCE), b"", 0
        self.heard()
        made = self.send("WebDriver:NewSession", {"capabilities": {"alwaysMatch": {}}})
        self.version = f"Firefox {made['capabilities']['browserVersion']}"
        self.patient()

    def __exit__(self, *_):
        try:
            self.send("Marionette:Quit", {"flags": ["eForceQuit"]})
        except (Refused, OSError):
            self.driver.terminate()
        self.driver.wait()
        self.line.close()
        self.profile.cleanup()

    def heard(self):
        while b":" not in self.held or len(self.held.partition(b":")[2]) < int(self.held.partition(b":")[0]):
            came = self.line.recv(1 << 16)
            if not came:
                raise Refused("Firefox ended")
            self.held += came
        length, _, rest = self.held.partition(b":")
        self.held = rest[int(length) :]
        return json.loads(rest[: int(length)])

    def send(self, name, body):
        self.count += 1
        data = json.dumps([0, self.count, name, body]).encode()
        self.line.sendall(b"%d:%b" % (len(data), data))
        _, _, fault, answer = self.heard()
        if fault:
            raise Refused(fault["message"])
        return answer

    def do(self, name, body, element=None):
        answer = self.send(f"WebDriver:{name}", body if element is None else {**body, "id": element})
        return answer["value"] if isinstance(answer, dict) and "value" in answer else answer
