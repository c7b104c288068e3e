"""The page as tests see it: what is typed into it, and what it shows."""


class Page:
    def __init__(self, browser, url):
        self.browser = browser
        self.url = url

    def open(self, fragment=""):
        """Opens the page, also where it is open at another fragment, and waits for its findings."""
        self.browser.open("about:blank")
        self.browser.open(self.url + fragment)
        self.browser.wait("document.documentElement.dataset.found")

    def settle(self):
        """Waits until nothing changes any more."""
        self.browser.script("""
            const {dataset} = document.documentElement;
            for (let same = 0; same < 2; same = dataset.sent === dataset.found ? same + 1 : 0)
                await new Promise(next => setTimeout(next, 40));
        """)

    def put(self, text, index=0):
        """Puts a text into a file at once, as pasting does."""
        self.browser.script("""
            const area = document.querySelectorAll(".file textarea")[words[1]];
            area.value = words[0];
            area.setSelectionRange(words[0].length, words[0].length);
            area.dispatchEvent(new Event("input", {bubbles: true}));
        """, text, index)
        self.settle()

    def only(self, text, language="en"):
        """Leaves one file with a text."""
        self.browser.script("""
            const closers = () => [...document.querySelectorAll(".file button")].filter(it => it.textContent === "Close");
            while (closers().length > 1) closers().at(-1).click();
            const tag = document.querySelector(".file .tag");
            tag.value = words[0];
            tag.dispatchEvent(new Event("input"));
        """, language)
        self.put(text)

    def argument(self, message, name, text, kind=None):
        """Puts an argument of a message."""
        self.browser.script("""
            const [message, name, text, kind] = words, card = document.querySelector(`[data-id="${message}"]`);
            const input = card.querySelector(`[data-argument="${name}"]`);
            const select = input.closest(".argument").querySelector("select");
            if (kind) {
                select.value = kind;
                select.dispatchEvent(new Event("change"));
            }
            input.value = text;
            input.dispatchEvent(new Event("input"));
        """, message, name, text, kind)
        self.settle()

    def texts(self):
        """What the messages show: [id, attribute, language, text] each."""
        return self.browser.script("""
            return [...document.querySelectorAll(".message")].flatMap(card => [...card.querySelectorAll("dt")].map(label => [
                card.dataset.id, label.querySelector("code")?.textContent.slice(1) ?? "", label.querySelector(".of").textContent,
                label.nextElementSibling.querySelector(".text")?.textContent ?? null,
            ]));
        """)

    def text(self, message, attribute=""):
        """The text of a message in the only language."""
        found = [text for name, part, _, text in self.texts() if (name, part) == (message, attribute)]
        assert len(found) == 1, f"{len(found)} texts of {message}"
        return found[0]

    def findings(self):
        """The places and kinds of the findings, as 'main.ftl:1:2 cycle'."""
        return self.browser.script("""
            const said = it => [".place", ".kind"].map(part => it.querySelector(part).textContent).join(" ");
            return [...document.querySelectorAll("#findings li")].map(said);
        """)

    def marks(self, index=0):
        """What is marked in the text of a file, in view."""
        return self.browser.script("""
            return [...document.querySelectorAll(".file")[words[0]].querySelectorAll("mark")].map(it => it.textContent);
        """, index)

    def files(self):
        """[name, language, text] of each file that is open."""
        return self.browser.script("""
            const parts = it => [".name", ".tag", "textarea"].map(part => it.querySelector(part).value);
            return [...document.querySelectorAll(".file")].map(parts);
        """)

    def focused(self):
        """What has the focus, by its name."""
        return self.browser.script("""
            const it = document.activeElement;
            return it.getAttribute("aria-label") ?? it.labels?.[0]?.textContent.trim() ?? it.textContent.trim();
        """)

    def caret(self):
        """Where the caret stands in the file that has the focus: the selected text, and what is before it."""
        return self.browser.script("""
            const it = document.activeElement;
            return [it.value.slice(it.selectionStart, it.selectionEnd), it.value.slice(0, it.selectionStart)];
        """)

    def link(self):
        """The fragment, once it holds what was typed."""
        self.settle()
        self.browser.wait("document.documentElement.dataset.linked === document.documentElement.dataset.sent")
        return self.browser.script("return location.hash")

    def said(self, element):
        return self.browser.script("return document.getElementById(words[0]).textContent", element)


def message_list(count):
    """FTL of so many messages, of which every tenth selects by a number."""
    one, other = "    [one] { $name } has one thing, number 0.\n", "   *[other] { $name } has { $n } things, number 0.\n"
    select = "message-0 = { $n ->\n" + one + other + "}\n"
    plain = "message-0 = This is the text with the number 0, for { $name } to read.\n"
    return "".join((select if i % 10 == 0 else plain).replace("0", str(i)) for i in range(count))

