"""The folder that web/make makes: all that the page needs, and nothing from elsewhere."""
import json
import os
import pathlib
import re
import subprocess
import tempfile
import unittest

WEB = pathlib.Path(__file__).resolve().parents[1]
FOLDER = pathlib.Path(os.environ.get("PAGE", ""))


def names_of(folder):
    return sorted(path.relative_to(folder).as_posix() for path in folder.rglob("*") if path.is_file())


class Made(unittest.TestCase):
    def test_all_files_are_kept_for_times_without_a_network(self):
        kept = json.loads(re.search(r"const FILES = (\[.*\]);", (FOLDER / "offline.js").read_text(encoding="utf-8"))[1])
        self.assertEqual(kept, ["./"] + [name for name in names_of(FOLDER) if name != "offline.js"])

    def test_each_import_is_there(self):
        for name in names_of(FOLDER):
            if not name.endswith(".js"):
                continue
            path = FOLDER / name
            for other in re.findall(r"""(?:from|new URL\(|import) ?"(\.?\.?/?[\w/.-]+\.js)\"""", path.read_text(encoding="utf-8")):
                self.assertTrue((path.parent / other).is_file(), f"{name} imports {other}")

    def test_nothing_comes_from_elsewhere(self):
        for name in names_of(FOLDER):
            if name.endswith((".js", ".html", ".css")):
                self.assertNotRegex((FOLDER / name).read_text(encoding="utf-8"), r"(?:src|href|import|from|url)\W{1,3}(?:https?:)?//", name)

    def test_other_files_stay(self):
        with tempfile.TemporaryDirectory() as folder:
            path = pathlib.Path(folder, "mine.txt")
            path.write_text("mine", encoding="utf-8")
            done = subprocess.run([WEB / "make", folder, FOLDER / "fluent"], capture_output=True, check=False)
            self.assertEqual(done.returncode, 2)
            self.assertEqual(names_of(pathlib.Path(folder)), ["mine.txt"])

    def test_without_an_engine_nothing_is_made(self):
        with tempfile.TemporaryDirectory() as folder:
            done = subprocess.run([WEB / "make", f"{folder}/page", folder], capture_output=True, check=False)
            self.assertEqual(done.returncode, 3)
            self.assertEqual(names_of(pathlib.Path(folder)), [])

    def test_a_page_that_was_made_is_made_again(self):
        with tempfile.TemporaryDirectory() as folder:
            for _ in range(2):
                subprocess.run([WEB / "make", f"{folder}/page", FOLDER / "fluent"], check=True)
            self.assertEqual(names_of(pathlib.Path(folder, "page")), names_of(FOLDER))
