"""Two browsers without a window, driven by their own protocols: Chromium by WebDriver through chromedriver, Firefox by Marionette."""
import base64
import json
import os
import shutil
import socket
import subprocess
import tempfile
import time
import urllib.error
import urllib.request

ELEMENT = "element-6066-11e4-a52e-4f735466cecf"
SECONDS = 60


def free_port():
    with socket.socket() as found:
        found.bind(("127.0.0.1", 0))
        return found.getsockname()[1]


def wait_for(found, seconds=SECONDS):
    """What `found` gives once it gives something; None where it doesn't in time."""
    end = time.monotonic() + seconds
    while time.monotonic() < end:
        told = found()
        if told:
            return told
        time.sleep(0.05)
    return None


class Browser:
    """What both protocols share: scripts and pictures."""

    def __init__(self):
        self.folder = tempfile.mkdtemp()
        self.started = None

    def run(self, script, *words):
        """What a script's `return` gives; a promise is waited for."""
        return self.ask("script", {"script": script, "args": list(words)})

    def until(self, script, *words, seconds=SECONDS):
        return wait_for(lambda: self.run(script, *words), seconds)

    def picture(self, path):
        with open(path, "wb") as file:
            file.write(base64.b64decode(self.ask("picture", {})))

    def close(self):
        self.started.terminate()
        try:
            self.started.wait(10)
        except subprocess.TimeoutExpired:
            self.started.kill()
        shutil.rmtree(self.folder, ignore_errors=True)


class Chromium(Browser):
    name = "Chromium"

    def __init__(self):
        super().__init__()
        port = free_port()
        self.base = f"http://127.0.0.1:{port}"
        quiet = {"stdout": subprocess.DEVNULL, "stderr": subprocess.DEVNULL}
        self.started = subprocess.Popen(["chromedriver", f"--port={port}"], **quiet)
        wait_for(lambda: self.is_up())
        options = {"args": ["--headless=new", "--no-sandbox", "--disable-gpu", f"--user-data-dir={self.folder}", "--window-size=1400,1000"]}
        wanted = {"alwaysMatch": {"browserName": "chrome", "goog:chromeOptions": options, "goog:loggingPrefs": {"performance": "ALL", "browser": "ALL"}}}
        self.base += f"/session/{self.send('POST', '/session', {'capabilities': wanted})['sessionId']}"

    def is_up(self):
        try:
            return self.send("GET", "/status")["ready"]
        except OSError:
            return False

    def send(self, method, path, body=None):
        data = None if body is None else json.dumps(body).encode()
        request = urllib.request.Request(self.base + path, data, {"Content-Type": "application/json"}, method=method)
        try:
            with urllib.request.urlopen(request, timeout=3 * SECONDS) as answer:
                return json.load(answer)["value"]
        except urllib.error.HTTPError as error:
            raise RuntimeError(json.load(error)["value"]["message"]) from None

    def ask(self, what, body):
        if what == "picture":
            return self.send("GET", "/screenshot")
        return self.send("POST", "/execute/sync", body)

    def go(self, address):
        self.send("POST", "/url", {"url": address})

    def size(self, width, height):
        """Also less than a window's least width: the device's own."""
        metrics = {"width": width, "height": height, "deviceScaleFactor": 1, "mobile": width < 500}
        self.send("POST", "/goog/cdp/execute", {"cmd": "Emulation.setDeviceMetricsOverride", "params": metrics})

    def give_files(self, selector, paths):
        found = self.send("POST", "/element", {"using": "css selector", "value": selector})
        self.send("POST", f"/element/{found[ELEMENT]}/value", {"text": "\n".join(paths)})

    def type(self, keys):
        """Types keys where the focus is."""
        actions = [step for key in keys for step in ({"type": "keyDown", "value": key}, {"type": "keyUp", "value": key})]
        self.send("POST", "/actions", {"actions": [{"type": "key", "id": "keyboard", "actions": actions}]})

    def logs(self, kind):
        return self.send("POST", "/se/log", {"type": kind})

    def close(self):
        # Else chromedriver leaves its browser running.
        self.send("DELETE", "")
        super().close()

    def requests(self):
        """The addresses that were asked for since this was last asked."""
        told = [json.loads(entry["message"])["message"] for entry in self.logs("performance")]
        return [it["params"]["request"]["url"] for it in told if it["method"] == "Network.requestWillBeSent"]


class Firefox(Browser):
    name = "Firefox"

    def __init__(self):
        super().__init__()
        port = free_port()
        with open(os.path.join(self.folder, "user.js"), "w", encoding="utf-8") as file:
            file.write(f'user_pref("marionette.port", {port});\n')
        quiet = {"stdout": subprocess.DEVNULL, "stderr": subprocess.DEVNULL}
        self.started = subprocess.Popen(["firefox-esr", "--headless", "--marionette", "--profile", self.folder, "--no-remote"], **quiet)
        self.line = wait_for(lambda: self.called(port))
        self.read()
        self.count = 0
        self.send("WebDriver:NewSession", {"capabilities": {"alwaysMatch": {}}})

    @staticmethod
    def called(port):
        try:
            return socket.create_connection(("127.0.0.1", port), timeout=3 * SECONDS)
        except OSError:
            return None

    def read(self):
        length = b""
        while not length.endswith(b":"):
            length += self.line.recv(1)
        body = b""
        while len(body) < int(length[:-1]):
            body += self.line.recv(int(length[:-1]) - len(body))
        return json.loads(body)

    def send(self, name, body):
        self.count += 1
        text = json.dumps([0, self.count, name, body]).encode()
        self.line.sendall(str(len(text)).encode() + b":" + text)
        _, _, error, value = self.read()
        if error:
            raise RuntimeError(error["message"])
        return value["value"] if isinstance(value, dict) and "value" in value else value

    def ask(self, what, body):
        if what == "picture":
            return self.send("WebDriver:TakeScreenshot", {"full": False})
        return self.send("WebDriver:ExecuteScript", body)

    def go(self, address):
        self.send("WebDriver:Navigate", {"url": address})

    def size(self, width, height):
        self.send("WebDriver:SetWindowRect", {"width": width, "height": height})

    def close(self):
        self.line.close()
        super().close()
