"""Opens tests/page.html in a browser without a screen: browse.py FOLDER WIDTH PROGRAM. It prints what the page posts."""
import functools
import http.server
import os
import queue
import subprocess
import sys
import tempfile
import threading
from pathlib import Path

PACKAGE = Path(__file__).resolve().parents[1]
SECONDS = 1800


class Handler(http.server.SimpleHTTPRequestHandler):
    """Serves the package, and FOLDER as /data."""

    folder = None
    results = queue.Queue()

    def translate_path(self, path):
        if path.startswith("/data/"):
            return os.path.join(self.folder, os.path.basename(path))
        return super().translate_path(path)

    def do_POST(self):
        Handler.results.put(self.rfile.read(int(self.headers["Content-Length"])).decode("utf-8"))
        self.send_response(204)
        self.end_headers()

    def log_message(self, *_):
        pass


def words(program, profile, url):
    if "firefox" in program:
        return [program, "--headless", "--no-remote", "--profile", profile, url]
    # Chromium has no sandbox for root.
    return [program, "--headless", "--no-sandbox", "--disable-gpu", "--no-first-run", f"--user-data-dir={profile}", url]


def result(program, url):
    with tempfile.TemporaryDirectory(prefix="js-", ignore_cleanup_errors=True) as profile:
        browser = subprocess.Popen(words(program, profile, url), env={**os.environ, "HOME": profile},
                                   stdout=subprocess.DEVNULL, stderr=subprocess.DEVNULL)
        try:
            return Handler.results.get(timeout=SECONDS)
        finally:
            browser.terminate()
            browser.wait()


def main():
    Handler.folder, width, program = sys.argv[1:]
    server = http.server.ThreadingHTTPServer(("127.0.0.1", 0), functools.partial(Handler, directory=str(PACKAGE)))
    threading.Thread(target=server.serve_forever, daemon=True).start()
    print(result(program, f"http://127.0.0.1:{server.server_port}/tests/page.html?{width}"))


if __name__ == "__main__":
    main()
