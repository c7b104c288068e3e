"""The pieces of the README, and the example of a page."""
import contextlib
import importlib.util
import io
import os
import re
import tempfile
import unittest
import warnings
from datetime import date
from unittest import mock
from wsgiref.util import setup_testing_defaults

from . import TOP

PACKAGE = TOP / "bindings/python"

ENGLISH = """\
Welcome to Corner Shop, Ada!
It is Tuesday, March 5, 2024.
You have 3 things in your basket, for PLN1,234.50.
23.5% of it is tax.
Your picture has 1 MB.
Bring back what you don't like within 14 days."""
POLISH = """\
Witamy w progach Sklepiku, Ada!
Dziś jest wtorek, 5 marca 2024.
Masz 3 rzeczy w koszyku, razem 1 234,50 zł.
W tym 23,5% podatku.
Twoje zdjęcie ma 1 MB.
Bring back what you don't like within 14 days."""
PLAIN = """\
Welcome to Corner Shop, Ada!
It is 2024-03-05.
You have 3 things in your basket, for 1234.5.
0.235 of it is tax.
Your picture has 1 MB.
Bring back what you don't like within 14 days."""


def has_babel():
    return importlib.util.find_spec("babel") is not None


def program(name):
    spec = importlib.util.spec_from_file_location(name, PACKAGE / f"examples/{name}.py")
    made = importlib.util.module_from_spec(spec)
    spec.loader.exec_module(made)
    return made


class Shop(unittest.TestCase):
    def get(self, languages):
        environ = {"QUERY_STRING": "name=Ada", "HTTP_ACCEPT_LANGUAGE": languages, "today": date(2024, 3, 5)}
        setup_testing_defaults(environ)
        told = []
        body = b"".join(program("shop").application(environ, lambda *words: told.append(words))).decode("utf-8")
        self.assertEqual(told, [("200 OK", [("Content-Type", "text/plain; charset=utf-8")])])
        return re.sub("[\u202f\xa0]", " ", body)

    def test_languages(self):
        for languages, text in (("pl-PL,pl;q=0.9,en;q=0.5", POLISH), ("en-US", ENGLISH), ("", ENGLISH), ("xx", ENGLISH)):
            with warnings.catch_warnings():
                warnings.simplefilter("ignore")
                lines = self.get(languages).split("\n")
            # Without Babel dates and numbers are others.
            shown = slice(None) if has_babel() else slice(None, None, 4)
            self.assertEqual(lines[shown], text.split("\n")[shown])

    def test_without_babel(self):
        with mock.patch.dict("sys.modules", {"fluent_rattle._babel": None}), self.assertWarns(RuntimeWarning):
            self.assertEqual(self.get("en"), PLAIN)


class Readme(unittest.TestCase):
    """Each piece of the README is run, one after the other as a program. What is printed stands behind `# ` in the line."""

    FILES = {"l10n/pl/main.ftl": "hello = Cześć, { $name }!\n", "l10n/en/main.ftl": "hello = Hello, { $name }!\nbye = Bye!\n"}

    def pieces(self):
        text = (PACKAGE / "README.md").read_text(encoding="utf-8")
        return re.findall(r"^```python\n(.*?)^```$", text, flags=re.MULTILINE | re.DOTALL)

    def run_piece(self, piece, names):
        printed = io.StringIO()
        with contextlib.redirect_stdout(printed):
            exec(compile(piece, "README.md", "exec"), names)
        wanted = re.findall(r"^ *print\(.*\)  # (.*)$", piece, flags=re.MULTILINE)
        self.assertEqual(re.sub("[\u202f\xa0]", " ", printed.getvalue()), "".join(f"{line}\n" for line in wanted))

    def test_each_piece(self):
        pieces, before = self.pieces(), os.getcwd()
        self.assertGreater(len(pieces), 3)
        self.addCleanup(os.chdir, before)
        with tempfile.TemporaryDirectory() as folder:
            for name, text in self.FILES.items():
                path = os.path.join(folder, name)
                os.makedirs(os.path.dirname(path), exist_ok=True)
                with open(path, "w", encoding="utf-8") as file:
                    file.write(text)
            os.chdir(folder)
            names = {}
            for piece in pieces:
                if has_babel() or "# With Babel" not in piece:
                    self.run_piece(piece, names)
            os.chdir(before)


if __name__ == "__main__":
    unittest.main()
