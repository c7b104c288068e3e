"""A browser that is driven: what Chromium and Firefox have in common, over the commands of WebDriver."""
import base64
import json
import time

SHIFT, CONTROL, TAB, ENTER, ESCAPE = "\ue008", "\ue009", "\ue004", "\ue007", "\ue00c"
HOME, END, DOWN, F8, BACKSPACE = "\ue011", "\ue010", "\ue015", "\ue038", "\ue003"


class Driven:
    """Subclasses give command(name, path, words), resize(width, height), dark(is_dark) and quit()."""

    def open(self, url):
        """Goes to an address, and waits until the page is loaded."""
        self.command("Navigate", "url", {"url": url})

    def reload(self):
        self.command("Refresh", "refresh", {})

    def script(self, code, *words):
        """Runs the body of an async function, whose arguments are words. Waits for its answer."""
        body = f"return (async (...words) => {{ {code} }})(...arguments)"
        return self.command("ExecuteScript", "execute/sync", {"script": body, "args": list(words)})

    def wait(self, code, *words, seconds=60):
        """Waits until an expression is true, and gives it."""
        end = time.monotonic() + seconds
        while True:
            value = self.script(f"return {code}", *words)
            if value or time.monotonic() > end:
                assert value, f"never true: {code} {json.dumps(words)[:200]}"
                return value
            time.sleep(0.02)

    def type(self, text):
        """Presses and releases a key for each letter."""
        steps = [{"type": kind, "value": letter} for letter in text for kind in ("keyDown", "keyUp")]
        self.act({"type": "key", "id": "keys", "actions": steps})

    def press(self, *held):
        """Presses keys together, as Shift and F8."""
        steps = [{"type": "keyDown", "value": key} for key in held] + [{"type": "keyUp", "value": key} for key in reversed(held)]
        self.act({"type": "key", "id": "keys", "actions": steps})

    def click(self, selector):
        """Clicks in the middle of an element."""
        x, y = self.script(
            "const it = document.querySelector(words[0]); it.scrollIntoView({block: 'nearest'}); const at = it.getBoundingClientRect();"
            "return [at.x + at.width / 2, at.y + at.height / 2]", selector)
        self.act({"type": "pointer", "id": "mouse", "parameters": {"pointerType": "mouse"}, "actions": [
            {"type": "pointerMove", "duration": 0, "x": round(x), "y": round(y)},
            {"type": "pointerDown", "button": 0}, {"type": "pointerUp", "button": 0},
        ]})

    def act(self, source):
        self.command("PerformActions", "actions", {"actions": [source]})

    def choose(self, selector, *paths):
        """Chooses files in an input of files."""
        found = self.command("FindElement", "element", {"using": "css selector", "value": selector})
        name = next(iter(found.values()))
        self.command("ElementSendKeys", f"element/{name}/value", {"id": name, "text": "\n".join(paths)})

    def screenshot(self, path):
        picture = self.command("TakeScreenshot", "screenshot", {})
        path.parent.mkdir(parents=True, exist_ok=True)
        path.write_bytes(base64.b64decode(picture))
