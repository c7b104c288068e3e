"""Chromium, driven by chromedriver over HTTP."""
import json
import shutil
import subprocess
import tempfile
import time
import urllib.error
import urllib.request

from .driven import Driven
from .ports import free_port

NEEDED = ("chromium", "chromedriver")


def missing():
    """What is not installed."""
    return [name for name in NEEDED if not shutil.which(name)]


class Chromium(Driven):
    name = "chromium"

    def __init__(self):
        self.folder = tempfile.mkdtemp()
        self.port = free_port()
        quiet = {"stdout": subprocess.DEVNULL, "stderr": subprocess.DEVNULL}
        self.process = subprocess.Popen(["chromedriver", f"--port={self.port}"], **quiet)
        words = ["--headless=new", "--no-sandbox", "--disable-gpu", "--hide-scrollbars", "--window-size=1280,900"]
        words.append(f"--user-data-dir={self.folder}")
        wanted = {"browserName": "chrome", "goog:chromeOptions": {"args": words, "binary": shutil.which("chromium")}}
        self.wait_for_driver()
        self.session = self.new_session(wanted)
        self.script_timeout()

    def new_session(self, wanted):
        """Chromium, started once more where a busy machine takes longer than its driver waits."""
        for left in (2, 1, 0):
            try:
                return self.post("session", {"capabilities": {"alwaysMatch": wanted}})["sessionId"]
            except AssertionError:
                if not left:
                    self.process.terminate()
                    raise

    def script_timeout(self):
        self.command("SetTimeouts", "timeouts", {"script": 120_000})

    def wait_for_driver(self):
        for _ in range(200):
            try:
                urllib.request.urlopen(f"http://127.0.0.1:{self.port}/status", timeout=5).close()
                return
            except OSError:
                time.sleep(0.05)
        raise RuntimeError("chromedriver does not answer")

    def post(self, path, words, method="POST"):
        url, kind = f"http://127.0.0.1:{self.port}/{path}", {"Content-Type": "application/json"}
        request = urllib.request.Request(url, json.dumps(words).encode(), kind, method=method)
        try:
            with urllib.request.urlopen(request, timeout=150) as answer:
                return json.load(answer)["value"]
        except urllib.error.HTTPError as error:
            raise AssertionError(json.load(error)["value"]["message"].split("\n")[0]) from None

    def command(self, _name, path, words):
        if path == "screenshot":
            with urllib.request.urlopen(f"http://127.0.0.1:{self.port}/session/{self.session}/screenshot", timeout=60) as answer:
                return json.load(answer)["value"]
        return self.post(f"session/{self.session}/{path}", words)

    def devtools(self, command, **words):
        return self.command("", "goog/cdp/execute", {"cmd": command, "params": words})

    def resize(self, width, height):
        self.devtools("Emulation.setDeviceMetricsOverride", width=width, height=height, deviceScaleFactor=1, mobile=width < 600)

    def dark(self, is_dark):
        value = "dark" if is_dark else "light"
        self.devtools("Emulation.setEmulatedMedia", features=[{"name": "prefers-color-scheme", "value": value}])

    def drop(self, paths, selector):
        """Drops files, as from the desktop."""
        x, y = self.script("const at = document.querySelector(words[0]).getBoundingClientRect(); return [at.x + 20, at.y + 20]", selector)
        data = {"items": [], "files": paths, "dragOperationsMask": 1}
        for kind in ("dragEnter", "dragOver", "drop"):
            self.devtools("Input.dispatchDragEvent", type=kind, x=x, y=y, data=data)

    def quit(self):
        try:
            self.post(f"session/{self.session}", {}, method="DELETE")
        finally:
            self.process.terminate()
            self.process.wait()
            shutil.rmtree(self.folder, ignore_errors=True)
