"""Firefox, driven by its own protocol, Marionette: the commands of WebDriver as JSON over TCP. Debian has no geckodriver."""
import base64
import itertools
import json
import os
import pathlib
import shutil
import socket
import subprocess
import tempfile
import time

from .driven import Driven
from .ports import free_port

NEEDED = ("firefox-esr",)

PREFERENCES = {
    "app.normandy.enabled": False, "app.update.auto": False, "browser.shell.checkDefaultBrowser": False,
    "browser.startup.homepage_override.mstone": "ignore", "browser.startup.page": 0, "datareporting.policy.dataSubmissionEnabled": False,
    "extensions.update.enabled": False, "network.captive-portal-service.enabled": False, "network.connectivity-service.enabled": False,
    "services.settings.server": "", "toolkit.telemetry.enabled": False, "browser.newtabpage.enabled": False,
}


def missing():
    """What is not installed."""
    return [name for name in NEEDED if not shutil.which(name)]


class Firefox(Driven):
    name = "firefox"

    def __init__(self):
        self.folder = tempfile.mkdtemp()
        port = free_port()
        wanted = {**PREFERENCES, "marionette.port": port}
        lines = [f"user_pref({json.dumps(name)}, {json.dumps(value)});\n" for name, value in wanted.items()]
        pathlib.Path(self.folder, "user.js").write_text("".join(lines), encoding="utf-8")
        words = ["--headless", "--marionette", "--remote-allow-system-access", "--no-remote", "--profile", self.folder]
        room = {**os.environ, "HOME": self.folder, "MOZ_HEADLESS_WIDTH": "1280", "MOZ_HEADLESS_HEIGHT": "900"}
        quiet = {"stdout": subprocess.DEVNULL, "stderr": subprocess.DEVNULL}
        self.process = subprocess.Popen(["firefox-esr", *words], env=room, **quiet)
        self.numbers = itertools.count(1)
        self.socket = self.connected(port)
        self.receive()
        self.command("NewSession", "", {"capabilities": {"alwaysMatch": {"timeouts": {"script": 120_000}}}})

    def connected(self, port):
        for _ in range(600):
            try:
                return socket.create_connection(("127.0.0.1", port), timeout=150)
            except OSError:
                time.sleep(0.1)
        raise RuntimeError("Firefox does not answer")

    def receive(self):
        """One message, which stands after its length and a colon."""
        length = b""
        while not length.endswith(b":"):
            length += self.take(1)
        return json.loads(self.take(int(length[:-1])))

    def take(self, count):
        parts = b""
        while len(parts) < count:
            part = self.socket.recv(count - len(parts))
            if not part:
                raise RuntimeError("Firefox has ended")
            parts += part
        return parts

    def command(self, name, _path, words):
        message = json.dumps([0, next(self.numbers), name if ":" in name else f"WebDriver:{name}", words]).encode()
        self.socket.sendall(b"%d:%s" % (len(message), message))
        _, _, error, result = self.receive()
        if error:
            raise AssertionError(error["message"])
        return result.get("value") if isinstance(result, dict) else result

    def resize(self, width, height):
        """The window is as large as asked, but for its own least width."""
        for _ in range(2):
            now = self.script("return [innerWidth, innerHeight, outerWidth, outerHeight]")
            self.command("SetWindowRect", "", {"width": width + now[2] - now[0], "height": height + now[3] - now[1]})

    def dark(self, is_dark):
        self.command("Marionette:SetContext", "", {"value": "chrome"})
        try:
            self.script("Services.prefs.setIntPref('layout.css.prefers-color-scheme.content-override', words[0])", 0 if is_dark else 1)
        finally:
            self.command("Marionette:SetContext", "", {"value": "content"})

    def drop(self, paths, selector):
        """Drops files by events that the page can't tell from true ones but by isTrusted."""
        files = [(pathlib.Path(path).name, base64.b64encode(pathlib.Path(path).read_bytes()).decode()) for path in paths]
        self.script("""
            const [files, selector] = words, transfer = new DataTransfer();
            for (const [name, data] of files) transfer.items.add(new File([Uint8Array.from(atob(data), c => c.charCodeAt(0))], name));
            const onto = document.querySelector(selector), all = {dataTransfer: transfer, bubbles: true, cancelable: true};
            for (const kind of ["dragenter", "dragover", "drop"]) onto.dispatchEvent(new DragEvent(kind, all));
        """, files, selector)

    def quit(self):
        try:
            self.command("Marionette:Quit", "", {"flags": ["eForceQuit"]})
        except (OSError, RuntimeError, AssertionError):
            self.process.terminate()
        self.process.wait()
        self.socket.close()
        shutil.rmtree(self.folder, ignore_errors=True)
