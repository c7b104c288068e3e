"""Reads fixtures, the files of tests/test_fixtures/data: FIXTURES.md beside that folder says what stands in them."""
import re
from dataclasses import dataclass, field, replace
from typing import Optional

SIGNS = "#= #< #+ #: #! #none #absent #attributes #junk #left #end #@ #--- #===".split()
ESCAPE = re.compile(r"\\(?:u\{([0-9a-fA-F]+)\}|(.?))", re.DOTALL)
ESCAPES = {"\\": "\\", '"': '"', "n": "\n"}
WORD = re.compile(r'(?:[^ "]|"(?:[^"\\]|\\.)*")+')
BAR = re.compile(r'(?:[^"]|"(?:[^"\\]|\\.)*")*?(?:^| )\|(?: |$)')


@dataclass(frozen=True)
class Settings:
    """What is set for a bundle, as it is at a file's start."""

    isolating: bool = True
    language: str = "en"
    # The cardinal and the ordinal rules that are set as texts, in place of those of the language.
    cardinal: Optional[str] = None
    ordinal: Optional[str] = None
    limit: int = 100
    # What an object of the application's does: the library for C has none of these.
    objects: tuple = ()

    def without(self, *words):
        return replace(self, objects=tuple(o for o in self.objects if not o.startswith(words)))

    def having(self, words):
        return replace(self, objects=(*self.objects, words))


@dataclass
class Source:
    """A source, and what must be told of it: which bytes can't be read, and the ids of entries that are left."""

    text: str = ""
    junk: list = field(default_factory=list)
    left: list = field(default_factory=list)
    # Whether its entries take the place of what has their ids.
    is_overriding: bool = False


@dataclass
class Bundle:
    settings: Settings
    sources: list = field(default_factory=list)
    # In a chain, the link that is asked before this one.
    before: Optional["Bundle"] = None

    def links(self):
        """The bundles of the chain that ends with this one, in order."""
        return [*(self.before.links() if self.before else []), self]


@dataclass
class Row:
    """A call, or what isn't there."""

    line: int
    bundle: Bundle
    sign: str
    id: str
    attribute: str
    arguments: list
    text: str
    errors: list = field(default_factory=list)


def unescaped(text):
    """A text with what its escapes stand for."""
    return ESCAPE.sub(lambda e: chr(int(e[1], 16)) if e[1] else ESCAPES[e[2]], text)


def set_by(settings, words):
    """The settings with one more."""
    word, _, rest = words.partition(" ")
    if words == "default":
        return Settings()
    if word == "isolating":
        return replace(settings, isolating=rest == "on")
    if word == "plurals":
        return replace(settings, language="en" if rest == "english" else rest, cardinal=None, ordinal=None)
    if word in ("cardinal", "ordinal"):
        return replace(settings, **{word: rest})
    if word == "limit":
        return replace(settings, limit=int(rest))
    if words in ("functions none", "builtins on", "transform none", "formatter none"):
        return settings.without(word.rstrip("s"))
    if words in ("objects first", "objects last"):
        # Where they are last, the built-in function comes after the sources too.
        return settings.without(word).having("objects NUMBER") if rest == "last" else settings.without(word)
    if word in ("cut", "replace"):
        return settings
    return settings.without(word).having(words) if word != "function" else settings.having(words)


class Reader:
    def __init__(self, text):
        self.text = text
        self.rows = []
        self.above = ""
        self.bundle = Bundle(Settings())
        self.begin_source(0)
        place = 0
        for number, line in enumerate(text.split("\n"), 1):
            end = place + len(line) + 1
            self.take(number, line[:-1] if line.endswith("\r") else line, place, end)
            place = end
        self.end_source(len(text))

    def begin_source(self, start):
        self.start = start
        self.source = Source()
        self.bundle.sources.append(self.source)

    def end_source(self, end):
        if self.start is not None:
            self.source.text = self.text[self.start:end]
        self.start = None

    def take(self, number, line, start, end):
        if not line.startswith("#"):
            message = re.match(r"[A-Za-z][A-Za-z0-9_-]*", line)
            self.above = message[0] if message else self.above
        elif not re.match(r"#+( |$)", line):
            sign, _, rest = line.partition(" ")
            if sign not in SIGNS:
                raise ValueError(f"line {number}: {line}")
            self.directive(number, sign, rest, start, end)

    def directive(self, number, sign, rest, start, end):
        if sign in ("#---", "#==="):
            self.end_source(start)
            self.begin(sign, rest, end)
        elif sign == "#end":
            self.end_source(max(start - 1, 0))
        elif sign == "#@":
            self.bundle.settings = set_by(self.bundle.settings, rest)
        elif sign == "#junk":
            self.source.junk.append(tuple(map(int, rest.split(".."))))
        elif sign == "#left":
            self.source.left.append(rest)
        elif sign == "#+":
            self.rows[-1].text += "\n" + unescaped(rest)
        elif sign == "#!":
            self.rows[-1].errors.append("Resolver error: " + unescaped(rest))
        elif sign in ("#=", "#<"):
            self.call(number, sign, rest)
        elif sign != "#:":
            self.row(number, sign, "" if sign == "#attributes" else rest, [], rest)

    def begin(self, sign, rest, end):
        self.above = ""
        before = self.bundle
        if sign == "#---":
            self.begin_source(end)
            self.source.is_overriding = rest == "overriding"
        elif rest == "again":
            self.bundle = Bundle(before.settings, before.sources)
        else:
            self.bundle = Bundle(before.settings, before=before if rest == "chain" else None)
            self.begin_source(end)

    def call(self, number, sign, rest):
        bar = BAR.match(rest)
        words = WORD.findall(bar[0].rstrip(" ")[:-1]) if bar else []
        text = rest[bar.end():] if bar else rest
        target = words.pop(0) if words and "=" not in words[0] else ""
        self.row(number, sign, target, [word.split("=", 1) for word in words], unescaped(text))

    def row(self, number, sign, target, arguments, text):
        message, dot, attribute = target.partition(".")
        message = message or self.above
        if not message:
            raise ValueError(f"line {number}: no message above")
        self.rows.append(Row(number, self.bundle, sign, message, attribute if dot else None, arguments, text))
