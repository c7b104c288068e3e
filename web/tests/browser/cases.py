"""What the page must do in each browser. A subclass names the browser; web/test runs it."""
import os
import pathlib
import statistics
import tempfile

from .driven import CONTROL, DOWN, END, ENTER, F8, HOME, SHIFT, TAB
from .page import Page, message_list
from .served import Served

FOLDER = os.environ.get("PAGE", "")
SHOTS = os.environ.get("SHOTS", "")


class Cases:
    """Mixed into a TestCase with `browser_class`."""

    browser_class = None

    @classmethod
    def setUpClass(cls):
        cls.served = Served(FOLDER)
        cls.browser = cls.browser_class()
        cls.page = Page(cls.browser, cls.served.url)

    @classmethod
    def tearDownClass(cls):
        cls.browser.quit()
        cls.served.stop()

    def setUp(self):
        self.page.open()

    def shoot(self, name):
        if SHOTS:
            self.browser.screenshot(pathlib.Path(SHOTS, f"{self.browser.name}-{name}.png"))

    def test_example(self):
        texts = self.page.texts()
        self.assertIn(["mails", "", "pl", "Masz jeden list."], texts)
        self.assertIn(["mails", "title", "en", "Mailbox of Postman"], texts)
        self.assertIn(["share", "", "pl", None], texts)
        self.assertEqual(self.page.findings(), ["pl/main.ftl:9:23 missing-term", "pl/main.ftl:10:1 unreadable"])
        self.assertEqual(self.page.marks(1), ["-brnd", "this can't be read"])
        self.shoot("light")

    def test_typing(self):
        self.page.only("")
        self.browser.click(".file textarea")
        self.browser.type("hello = Hello, { $who }!")
        self.page.settle()
        self.assertEqual(self.page.text("hello"), "Hello, \u2068who\u2069!")
        self.browser.click("[data-argument=who]")
        self.browser.press(END)
        self.browser.type("m")
        self.page.settle()
        self.assertEqual(self.page.text("hello"), "Hello, \u2068whom\u2069!")
        self.assertEqual(self.page.focused(), "$who of hello")

    def test_numbers(self):
        variants = "    [0] zero\n    [one] one\n    [few] { $n } few\n    [many] { $n } many\n   *[other] { $n } other\n"
        self.page.only(f"n = {{ $n ->\n{variants}}}\n", "pl")
        for typed, text in [("0", "zero"), ("1", "one"), ("3", "\u20683\u2069 few"), ("5", "\u20685\u2069 many")]:
            self.page.argument("n", "n", typed)
            self.assertEqual(self.page.text("n"), text)
        self.page.argument("n", "n", "3", "text")
        self.assertEqual(self.page.text("n"), "\u20683\u2069 other")

    def test_dates(self):
        self.page.only('d = { DATETIME($d, dateStyle: "long") }\n', "en")
        self.page.argument("d", "d", "2026-02-03T04:05")
        self.assertEqual(self.page.text("d"), "February 3, 2026")

    def test_a_finding_leads_to_its_place(self):
        self.page.only("first = 1\nsecond = { $x ->\n    [a] { -gone }\n   *[b] { missing }\n}\n")
        self.page.argument("second", "x", "a")
        self.assertEqual(self.page.findings(), ["main.ftl:3:11 missing-term"])
        self.assertEqual(self.page.marks(), ["-gone"])
        self.browser.click("#findings button")
        self.assertEqual(self.page.caret(), ["-gone", "first = 1\nsecond = { $x ->\n    [a] { "])
        self.page.argument("second", "x", "other")
        self.assertEqual(self.page.findings(), ["main.ftl:4:11 missing-message"])

    def test_a_broken_source(self):
        self.page.only("good = Good\nbad = { $x\n\nfine = Fine { $y }\n} \nlast = Last\n")
        self.assertEqual([text for *_, text in self.page.texts()], ["Good", "Fine \u2068y\u2069", "Last"])
        self.assertEqual(self.page.findings(), ["main.ftl:2:1 unreadable", "main.ftl:5:1 unreadable"])
        self.page.put("good = Good\nbad = { $x }\n")
        self.assertEqual(self.page.findings(), [])
        self.assertEqual(self.page.said("count"), "No findings")

    def test_hostile_sources(self):
        self.page.only("a = " + "{" * 200_000)
        self.assertEqual(self.page.findings(), ["main.ftl:1:1 unreadable"])
        chain = "".join(f"m{i} = {{ m{i + 1} }}{{ m{i + 1} }}\n" for i in range(60)) + "m60 = end\n"
        self.page.put(chain)
        self.assertEqual({line.split()[1] for line in self.page.findings()}, {"too-many-placeables"})
        self.page.put("a = <img src=x onerror=alert(1)> { $x }\n")
        self.page.argument("a", "x", "<b>bold</b>")
        self.assertEqual(self.page.text("a"), "<img src=x onerror=alert(1)> \u2068<b>bold</b>\u2069")
        self.page.put("a = after all { $x }\n")
        self.assertEqual(self.page.text("a"), "after all \u2068<b>bold</b>\u2069")

    def test_dropped_files(self):
        with tempfile.TemporaryDirectory() as folder:
            files = {"de.ftl": b"\xef\xbb\xbfa = Eins\r\nb = Zwei\r\n", "uk.ftl": "a = Один\n".encode(), "bad.ftl": b"a = \xff\n"}
            for name, data in files.items():
                pathlib.Path(folder, name).write_bytes(data)
            self.browser.drop([f"{folder}/{name}" for name in files], "main")
            self.browser.wait("document.querySelector('.tag').value === 'de'")
            self.page.settle()
        self.assertEqual(self.page.files(), [["de.ftl", "de", "a = Eins\nb = Zwei\n"], ["uk.ftl", "uk", "a = Один\n"]])
        self.assertEqual(self.page.texts()[:2], [["a", "", "de", "Eins"], ["a", "", "uk", "Один"]])
        self.assertEqual(self.page.said("faults"), "bad.ftl: not UTF-8")

    def test_a_dropped_folder(self):
        if self.browser.name == "firefox":
            self.skipTest("a folder can't be made by script, and Marionette drops nothing")
        with tempfile.TemporaryDirectory() as folder:
            for name in ("locales/en/main.ftl", "locales/pl/main.ftl", "locales/pl/menu/file.ftl", "locales/notes.txt"):
                path = pathlib.Path(folder, name)
                path.parent.mkdir(parents=True, exist_ok=True)
                path.write_text(f"{path.stem} = {name}\n", encoding="utf-8")
            self.browser.drop([f"{folder}/locales"], "main")
            self.browser.wait("document.querySelectorAll('.file').length === 3")
            self.page.settle()
        self.assertEqual([file[:2] for file in self.page.files()], [
            ["locales/en/main.ftl", "en"], ["locales/pl/main.ftl", "pl"], ["locales/pl/menu/file.ftl", "pl"],
        ])
        self.assertIn(["file", "", "pl", "locales/pl/menu/file.ftl"], self.page.texts())

    def test_chosen_and_saved_files(self):
        with tempfile.TemporaryDirectory() as folder:
            path = pathlib.Path(folder, "fr.ftl")
            path.write_text("a = Été\n", encoding="utf-8")
            self.browser.choose("#chosen", str(path))
            self.browser.wait("document.querySelector('.tag').value === 'fr'")
            self.page.settle()
            self.assertEqual(self.page.text("a"), "Été")
        self.page.put("a = Été 2\n")
        saved = self.browser.script("""
            const made = URL.createObjectURL, kept = [];
            URL.createObjectURL = blob => (kept.push(blob), made.call(URL, blob));
            HTMLAnchorElement.prototype.click = function () { kept.push(this.download); };
            [...document.querySelectorAll(".file button")].find(it => it.textContent === "Save").click();
            return [await kept[0].text(), kept[1]];
        """)
        self.assertEqual(saved, ["a = Été 2\n", "fr.ftl"])

    def test_a_copied_link_is_opened(self):
        self.page.only("a = copied\n")
        fragment = self.page.link()
        self.browser.click("#link")
        self.browser.wait("document.getElementById('link-state').textContent === 'Copied'")
        self.browser.click("#filter")
        self.browser.press(CONTROL, "v")
        self.assertEqual(self.browser.script("return document.getElementById('filter').value"), self.served.url + fragment)
        self.browser.script("document.getElementById('filter').value = ''")
        self.page.only("a = other\n")
        self.assertNotEqual(self.page.link(), fragment)
        self.browser.script("location.hash = words[0]", fragment)
        self.browser.wait("document.querySelector('.file textarea').value === 'a = copied\\n'")

    def test_what_is_too_long_for_a_link(self):
        text = self.browser.script("""
            const letters = () => Array.from(crypto.getRandomValues(new Uint16Array(3000)), it => String.fromCharCode(0x4e00 + it % 20000));
            return Array.from({length: 40}, (_, i) => `m${i} = ${letters().join("")}\\n`).join("");
        """)
        self.page.only(text)
        self.browser.wait("document.getElementById('link-state').textContent === 'Too long for a link: save the files'")
        self.assertEqual(self.browser.script("return location.hash"), "")

    def test_a_tag_that_is_none(self):
        self.page.only("a = { $n ->\n    [one] one { $n }\n   *[other] other { $n }\n}\n", "no tag")
        self.assertEqual(self.browser.script("return document.querySelector('.tag').getAttribute('aria-invalid')"), "true")
        self.assertEqual(self.page.text("a"), "other \u20681\u2069")

    def test_an_engine_that_is_missing(self):
        self.browser.script("await Promise.all((await navigator.serviceWorker.getRegistrations()).map(it => it.unregister()))")
        missing = Served(FOLDER, hidden="/fluent/wasm/")
        try:
            self.browser.open(missing.url)
            self.browser.wait("document.getElementById('engine').textContent.startsWith('The engine stopped')")
        finally:
            missing.stop()

    def test_the_link(self):
        self.page.only("a = Zażółć { $x } 😀\n", "pl")
        self.page.argument("a", "x", "7", "number")
        self.browser.click("#marks")
        fragment = self.page.link()
        self.page.open(fragment)
        self.assertEqual(self.page.files(), [["main.ftl", "pl", "a = Zażółć { $x } 😀\n"]])
        self.assertEqual(self.page.text("a"), "Zażółć \u20687\u2069 😀")
        self.assertTrue(self.browser.script("return document.getElementById('marks').checked"))
        self.page.open("#1.broken")
        self.assertEqual(self.page.said("faults"), "The link can’t be read.")
        self.assertEqual(len(self.page.files()), 2)

    def test_keyboard_alone(self):
        seen = []
        while len(seen) < 40 and (not seen or seen[-1] != "FTL of main.ftl, en"):
            self.browser.press(TAB)
            seen.append(self.page.focused())
        self.assertEqual(seen, [
            "Open files", "Add a file", "Copy link", "Isolate placeables", "Show invisible characters",
            "Name of the file", "Language of the file", "Save main.ftl, en", "Close main.ftl, en", "FTL of main.ftl, en",
        ])
        self.page.only("a = { b }\nc = { -d }\n")
        self.browser.script("document.querySelector('textarea').focus()")
        self.browser.press(CONTROL, HOME)
        for held, marked in [((F8,), "b"), ((F8,), "-d"), ((F8,), "b"), ((SHIFT, F8), "-d")]:
            self.browser.press(*held)
            self.assertEqual(self.page.caret()[0], marked)
        self.browser.type("-e")
        self.page.settle()
        self.assertEqual(self.page.files()[0][2], "a = { b }\nc = { -e }\n")
        self.browser.press(TAB)
        self.assertEqual(self.page.focused(), "Filter")
        while self.page.focused() != "main.ftl:1:7 missing-message Unknown message: b (in ‘a’)":
            self.browser.press(TAB)
        self.browser.press(ENTER)
        self.assertEqual(self.page.caret()[0], "b")
        self.assertIn("Unknown message: b", self.browser.script("return document.querySelector('.here').textContent"))

    def test_a_message_leads_to_its_place_and_back(self):
        self.page.only("a = A\nb = B\nc = C\n")
        self.browser.click("[data-id=b] .id")
        self.assertEqual(self.page.caret(), ["b", "a = A\n"])
        self.browser.wait("document.querySelector('[aria-current]')?.dataset.id === 'b'")
        self.browser.press(DOWN)
        self.browser.wait("document.querySelector('[aria-current]')?.dataset.id === 'c'")

    def test_marks_are_made_visible(self):
        self.page.only("a = { $x } and { $y }\u00a0!\n")
        before = self.page.text("a")
        self.browser.click("#marks")
        self.page.settle()
        self.assertEqual(self.page.text("a"), before)
        names = "[...document.querySelectorAll('.sign')].map(it => it.dataset.sign)"
        self.assertEqual(self.browser.script(f"return {names}"), ["FSI", "PDI", "FSI", "PDI", "NBSP"])
        self.shoot("marks")
        self.browser.click("#isolate")
        self.page.settle()
        self.assertEqual(self.page.text("a"), "x and y\u00a0!")

    def test_right_to_left(self):
        self.page.only("hello = مرحبا { $name }، لديك { $n } رسائل\ntitle = العنوان\n    .label = تسمية { $name }\n", "ar")
        self.page.argument("hello", "name", "Ada (Lovelace)")
        self.assertEqual(self.browser.script("return [...document.querySelectorAll('dd')].map(it => it.dir + it.lang)"), ["rtlar"] * 3)
        left, right = self.browser.script("""
            const [row, text] = ["dd", ".text"].map(it => document.querySelector(it).getBoundingClientRect());
            return [text.left - row.left, row.right - text.right];
        """)
        self.shoot("right-to-left-plain")
        self.assertLess(right, 2)
        self.assertGreater(left, 20)
        self.browser.click("#marks")
        self.page.settle()
        self.shoot("right-to-left")

    def test_files_are_added_and_closed(self):
        self.page.only("a = A { b }\n")
        self.browser.click("#add")
        self.assertEqual(self.page.focused(), "Language of the file")
        self.browser.type("en")
        self.page.put("b = B\n", 1)
        self.assertEqual(self.page.text("a"), "A B")
        self.browser.click(".file:last-child button:nth-of-type(2)")
        self.page.settle()
        self.assertEqual(self.page.text("a"), "A {b}")

    def test_one_of_many_files_is_gone_to(self):
        self.page.only("a = A\n")
        for _ in range(4):
            self.browser.click("#add")
        self.page.put("here = Here\n", 4)
        self.browser.script("""
            const names = document.getElementById("file");
            names.value = names.lastElementChild.value;
            names.dispatchEvent(new Event("change"));
        """)
        self.assertEqual(self.page.caret()[1][:5], "here ")
        self.assertTrue(self.browser.script("""
            const at = document.activeElement.getBoundingClientRect(), files = document.getElementById("files").getBoundingClientRect();
            return at.left >= files.left && at.right <= files.right;
        """))

    def test_pages_of_messages(self):
        self.page.only("".join(f"m{i} = Text {i}\n" for i in range(120)))
        self.assertEqual(self.page.said("range"), "1 to 50 of 120")
        self.browser.click("#after")
        self.page.settle()
        self.assertEqual(self.page.texts()[0], ["m50", "", "en", "Text 50"])
        self.browser.click("#filter")
        self.browser.type("text 11")
        self.page.settle()
        self.assertEqual([name for name, *_ in self.page.texts()], ["m11"] + [f"m{i}" for i in range(110, 120)])

    def test_a_long_file_is_shown_in_parts(self):
        self.page.only("".join(f"m{i} = Text {i}\n" for i in range(9000)) + "end = { gone }\n")
        self.assertLess(self.browser.script("return document.querySelector('.file textarea').value.length"), 200_000)
        self.browser.click("#findings button")
        self.assertEqual(self.page.caret()[0], "gone")
        self.browser.type("m8999")
        self.page.settle()
        self.assertEqual(self.page.findings(), [])
        self.browser.wait("document.querySelector('[aria-current]')?.dataset.id === 'end'")
        self.assertEqual(self.page.text("end"), "Text 8999")
        self.browser.click("[aria-label='Lines before these']")
        self.assertTrue(self.page.files()[0][2].endswith("\nm7999 = Text 7999\nm8000 = Text 8000"))
        self.page.settle()
        self.assertEqual(self.page.findings(), [])

    def test_ten_thousand_messages(self):
        self.page.only(message_list(10_000))
        self.assertEqual(self.page.said("range"), "1 to 50 of 10,000")
        for _ in range(4):
            painted, shown = self.keystrokes(12)
            if statistics.median(painted) < 100:
                break
        medians = f"painted in {statistics.median(painted):.0f} ms, its text shown in {statistics.median(shown):.0f} ms"
        report = f"{self.browser.name}: {medians} (medians, load {os.getloadavg()[0]:.0f})"
        print(report, flush=True)
        self.assertLess(statistics.median(painted), 100, report)

    def keystrokes(self, count):
        """How long it takes, from the key, until a letter is painted, and until the texts are shown with it."""
        self.browser.script("""
            const area = document.querySelector(".file textarea"), root = document.documentElement;
            area.focus();
            area.setSelectionRange(14, 14);
            const times = window.times = [];
            const painted = () => new Promise(done => requestAnimationFrame(() => setTimeout(done)));
            window.timed?.abort();
            window.timed = new AbortController();
            addEventListener("keydown", async () => {
                const from = performance.now(), version = root.dataset.shown, time = {};
                times.push(time);
                const shown = new Promise(done => {
                    const observer = new MutationObserver(() => root.dataset.shown !== version && done(observer.disconnect()));
                    observer.observe(root, {attributes: true});
                });
                await painted();
                time.painted = performance.now() - from;
                await shown;
                await painted();
                time.shown = performance.now() - from;
            }, {capture: true, signal: timed.signal});
        """)
        for _ in range(count):
            self.browser.type("x")
            self.page.settle()
        times = self.browser.script("return times")
        return [it["painted"] for it in times], [it["shown"] for it in times]

    def test_without_a_network(self):
        self.browser.script("await navigator.serviceWorker.ready")
        self.browser.wait("navigator.serviceWorker.controller")
        served = type(self).served
        served.stop()
        try:
            self.page.open()
            self.page.only("a = without { $x }\n")
            self.assertEqual(self.page.text("a"), "without \u2068x\u2069")
        finally:
            type(self).served = Served(FOLDER, served.port)

    def test_a_narrow_and_a_dark_screen(self):
        try:
            self.browser.dark(True)
            self.assertTrue(self.is_readable())
            self.shoot("dark")
            self.browser.resize(390, 844)
            self.page.settle()
            self.assertLessEqual(self.browser.script("return document.documentElement.scrollWidth - innerWidth"), 0)
            self.shoot("narrow-dark")
            self.browser.dark(False)
            self.assertTrue(self.is_readable())
            self.shoot("narrow")
        finally:
            self.browser.dark(False)
            self.browser.resize(1280, 800)

    def is_readable(self):
        """Whether each text has a contrast of 4.5 to what is behind it, as WCAG asks."""
        faint = self.browser.script("""
            const numbers = color => color.match(/[\\d.]+/g).map(Number);
            const part = it => (it /= 255) <= 0.04045 ? it / 12.92 : ((it + 0.055) / 1.055) ** 2.4;
            const light = ([r, g, b]) => 0.2126 * part(r) + 0.7152 * part(g) + 0.0722 * part(b);
            const behind = it => {
                for (; it; it = it.parentElement) {
                    const color = numbers(getComputedStyle(it).backgroundColor);
                    if (color[3] !== 0) return color;
                }
            };
            const contrast = it => {
                const [low, high] = [light(numbers(getComputedStyle(it).color)), light(behind(it))].sort((a, b) => a - b);
                return (high + 0.05) / (low + 0.05);
            };
            const hasText = it => [...it.childNodes].some(node => node.nodeType === 3 && node.data.trim());
            const isSeen = it => it.checkVisibility() && !it.closest(".marks") && !it.disabled;
            const shown = [...document.querySelectorAll("body *")].filter(it => isSeen(it) && hasText(it));
            if (shown.length < 30) return ["too few texts"];
            return shown.filter(it => contrast(it) < 4.5).map(it => `${it.className || it.localName} ${contrast(it).toFixed(2)}`);
        """)
        self.assertEqual(faint, [])
        return True

    def test_marks_lie_under_their_letters(self):
        try:
            for width in (1280, 390):
                self.browser.resize(width, 800)
                differ = self.browser.script("""
                    const both = ["textarea", ".marks"].map(it => document.querySelector(`.file ${it}`));
                    const [style, other] = both.map(it => getComputedStyle(it)), [place, below] = both.map(it => it.getBoundingClientRect());
                    const names = ["fontFamily", "fontSize", "fontWeight", "lineHeight", "letterSpacing", "tabSize"];
                    names.push("paddingLeft", "paddingTop", "borderLeftWidth", "borderTopWidth");
                    return [...names.filter(it => style[it] !== other[it]), ...["left", "top"].filter(it => place[it] !== below[it])];
                """)
                self.assertEqual(differ, [])
        finally:
            self.browser.resize(1280, 800)

    def test_controls_have_names(self):
        nameless = self.browser.script("""
            const own = it => it.localName === "button" && it.textContent.trim();
            const isNamed = it => it.getAttribute("aria-label") || it.labels?.[0]?.textContent.trim() || own(it);
            return [...document.querySelectorAll("button, input, select, textarea")].filter(it => !isNamed(it)).map(it => it.outerHTML);
        """)
        self.assertEqual(nameless, [])

