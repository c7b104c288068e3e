"""The made page, served in this process, so that a test can take the network away."""
import importlib.machinery
import importlib.util
import pathlib
import sys
import threading

WEB = pathlib.Path(__file__).resolve().parents[2]


def module(name):
    """A script of web/ as a module."""
    sys.dont_write_bytecode = True
    loader = importlib.machinery.SourceFileLoader(name, str(WEB / name))
    made = importlib.util.module_from_spec(importlib.util.spec_from_loader(name, loader))
    loader.exec_module(made)
    return made


def hiding(handler, hidden):
    class Hiding(handler):
        def do_GET(self):
            if self.path.startswith(hidden):
                self.send_error(404)
            else:
                super().do_GET()

    return Hiding


class Served:
    """`hidden` is the beginning of paths that are answered as if nothing were there."""

    def __init__(self, folder, port=0, hidden=None):
        serve = module("serve")
        if hidden:
            serve.Handler = hiding(serve.Handler, hidden)
        self.server = serve.server(folder, port)
        self.port = self.server.server_port
        self.url = f"http://127.0.0.1:{self.port}/"
        self.thread = threading.Thread(target=self.server.serve_forever, args=(0.05,), daemon=True)
        self.thread.start()

    def stop(self):
        self.server.shutdown()
        self.server.server_close()
        self.thread.join()
