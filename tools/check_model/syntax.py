"""Reads FTL by the grammar of Fluent Syntax 1.0 (docs/DIFFERENCES.md: Junk is the line where it begins and those up to the next
that may begin an entry; placeables and argument lists stand in one another 100 deep at most).

A pattern is a tuple of elements: ('text', TEXT) and ('place', EXPRESSION). An expression is one of
    ('string', SOURCE) ('number', SOURCE) ('variable', ID) ('message', ID, ATTRIBUTE) ('function', ID, ARGUMENTS)
    ('term', ID, ATTRIBUTE, ARGUMENTS or None) ('nested', EXPRESSION) ('select', SELECTOR, VARIANTS)
arguments are (POSITIONAL, NAMED), named ones (NAME, EXPRESSION); a variant is (KEY, PATTERN, IS_DEFAULT), a key ('name', TEXT)
or ('number', SOURCE). Attributes that aren't there are None."""
import re

LEVELS = 100
IDENTIFIER = re.compile(r"[a-zA-Z][a-zA-Z0-9_-]*")
FUNCTION = re.compile(r"[A-Z][A-Z0-9_-]*\Z")
NUMBER = re.compile(r"-?[0-9]+(?:\.[0-9]+)?")
STRING = re.compile(r'"((?:[^"\\\r\n]|\r(?!\n)|\\\\|\\"|\\u[0-9a-fA-F]{4}|\\U[0-9a-fA-F]{6})*)"')
SPACES = re.compile(r" *")
BLANK = re.compile(r"(?: |\r?\n)*")
LINE_END = re.compile(r"\r?\n|\Z")
BLANK_LINE = re.compile(r" *(?:\r?\n|\Z)")
TEXT = re.compile(r"(?:[^{}\r\n]|\r(?!\n))+")
REST_OF_LINE = re.compile(r"[^\n]*\n?")


class Refused(Exception):
    """The rule doesn't read here."""


class Attribute:
    def __init__(self, name, pattern, start, references):
        self.name, self.pattern, self.start, self.references = name, pattern, start, references


class Entry:
    """A message or a term, where it begins, and the references of its value: (EXPRESSION's kind, ID, ATTRIBUTE, START)."""

    def __init__(self, kind, name, value, attributes, start, references):
        self.kind, self.name, self.value, self.attributes, self.start, self.references = kind, name, value, attributes, start, references


class Junk:
    def __init__(self, start, end):
        self.kind, self.start, self.end = "junk", start, end


class Reader:
    def __init__(self, text):
        self.text, self.at, self.references = text, 0, []

    # ---- small parts

    def take(self, rule):
        found = rule.match(self.text, self.at)
        if not found:
            raise Refused
        self.at = found.end()
        return found[0]

    def follows(self, part):
        return self.text.startswith(part, self.at)

    def skip(self, part):
        """Whether it follows, and then it is taken."""
        if not self.follows(part):
            return False
        self.at += len(part)
        return True

    def expect(self, part):
        if not self.skip(part):
            raise Refused

    def attempt(self, rule):
        """What a rule reads, or None, and then nothing is taken."""
        at, count = self.at, len(self.references)
        try:
            return rule()
        except Refused:
            self.at = at
            del self.references[count:]
            return None

    def many(self, rule):
        found = []
        while (one := self.attempt(rule)) is not None:
            found.append(one)
        return found

    # ---- expressions, where so many levels may still be opened

    def literal(self):
        if self.follows('"'):
            return ("string", self.take(STRING)[1:-1])
        return ("number", self.take(NUMBER))

    def attribute_access(self):
        return self.take(IDENTIFIER) if self.skip(".") else None

    def optional_arguments(self, level):
        at = self.at
        self.take(BLANK)
        if self.follows("("):
            return self.arguments(level)
        self.at = at
        return None

    def inline(self, level):
        start = self.at
        if self.follows("{"):
            return ("nested", self.placeable(level))
        if self.skip("$"):
            return self.noted(("variable", self.take(IDENTIFIER)), start)
        if self.follows("-") and IDENTIFIER.match(self.text, self.at + 1):
            self.at += 1
            name, attribute = self.take(IDENTIFIER), self.attribute_access()
            self.references.append(("term", name, attribute, start))
            return ("term", name, attribute, self.optional_arguments(level))
        if not IDENTIFIER.match(self.text, self.at):
            return self.literal()
        name = self.take(IDENTIFIER)
        if not self.follows(".") and FUNCTION.match(name):
            count = len(self.references)
            self.references.append(("function", name, None, start))
            given = self.optional_arguments(level)
            if given is not None:
                return ("function", name, given)
            del self.references[count:]
        return self.noted(("message", name, self.attribute_access()), start)

    def noted(self, expression, start):
        self.references.append((expression[0], expression[1], expression[2] if len(expression) > 2 else None, start))
        return expression

    def argument(self, level):
        at = self.at
        if IDENTIFIER.match(self.text, self.at):
            name = self.take(IDENTIFIER)
            self.take(BLANK)
            if self.skip(":"):
                self.take(BLANK)
                return (name, self.literal())
            self.at = at
        return (None, self.inline(level))

    def arguments(self, level):
        if level == 0:
            raise Refused
        self.expect("(")
        self.take(BLANK)
        positional, named = [], []
        while not self.follows(")"):
            name, value = self.argument(level - 1)
            if name is not None:
                named.append((name, value))
            elif named:
                raise Refused
            else:
                positional.append(value)
            self.take(BLANK)
            if not self.skip(","):
                break
            self.take(BLANK)
        self.expect(")")
        if len({name for name, _ in named}) < len(named):
            raise Refused
        return (tuple(positional), tuple(named))

    def key(self):
        self.expect("[")
        self.take(BLANK)
        key = ("number", self.take(NUMBER)) if NUMBER.match(self.text, self.at) else ("name", self.take(IDENTIFIER))
        self.take(BLANK)
        self.expect("]")
        return key

    def variant(self, level):
        self.take(LINE_END)
        self.take(BLANK)
        is_default = self.skip("*")
        key = self.key()
        self.take(SPACES)
        return (key, self.pattern(level), is_default)

    def variants(self, level):
        found = self.many(lambda: self.variant(level))
        if sum(is_default for _, _, is_default in found) != 1:
            raise Refused
        self.take(LINE_END)
        return tuple(found)

    def expression(self, level):
        selector = self.inline(level)
        at = self.at
        self.take(BLANK)
        is_attribute = selector[0] == "term" and selector[2] is not None
        if self.skip("->"):
            if selector[0] not in ("string", "number", "function", "variable") and not is_attribute:
                raise Refused
            self.take(SPACES)
            return ("select", selector, self.variants(level))
        self.at = at
        if is_attribute:
            raise Refused
        return selector

    def placeable(self, level):
        if level == 0:
            raise Refused
        self.expect("{")
        self.take(BLANK)
        found = self.expression(level - 1)
        self.take(BLANK)
        self.expect("}")
        return found

    # ---- patterns

    def blank_block(self):
        """How many line ends there are, of one at least."""
        count = 0
        while self.at < len(self.text) and (found := BLANK_LINE.match(self.text, self.at)):
            self.at, count = found.end(), count + 1
        if count == 0:
            raise Refused
        return count

    def words(self, indent):
        return [("words", indent, self.take(TEXT), self.follows("\n"))]

    def block_text(self):
        ends = self.blank_block()
        indent = len(self.take(SPACES))
        if indent == 0 or self.follows("[") or self.follows("*") or self.follows("."):
            raise Refused
        return [("line", ends)] + self.words(indent)

    def block_placeable(self, level):
        ends = self.blank_block()
        indent = len(self.take(SPACES))
        return [("line", ends), ("words", indent, "", False), ("hole", self.placeable(level))]

    def pattern_element(self, level):
        """The pieces of one element, or None."""
        for rule in (lambda: self.words(None), self.block_text, lambda: [("hole", self.placeable(level))], lambda: self.block_placeable(level)):
            found = self.attempt(rule)
            if found is not None:
                return found
        return None

    def pattern(self, level):
        pieces = []
        while (found := self.pattern_element(level)) is not None:
            pieces += found
        if not pieces:
            raise Refused
        return elements_of(pieces)

    # ---- entries

    def name_of_value(self):
        name = self.take(IDENTIFIER)
        self.take(SPACES)
        self.expect("=")
        self.take(SPACES)
        return name

    def value(self):
        """A pattern, with the references in it."""
        count = len(self.references)
        return self.pattern(LEVELS), self.references[count:]

    def attribute(self):
        self.take(LINE_END)
        self.take(BLANK)
        start = self.at
        self.expect(".")
        name = self.name_of_value()
        pattern, references = self.value()
        return Attribute(name, pattern, start, references)

    def entry(self):
        start = self.at
        kind = "term" if self.skip("-") else "message"
        name = self.name_of_value()
        value = self.attempt(self.value)
        attributes = self.many(self.attribute)
        if value is None and (kind == "term" or not attributes):
            raise Refused
        self.take(LINE_END)
        pattern, references = value or (None, [])
        return Entry(kind, name, pattern, attributes, start, references)

    def junk(self):
        start = self.at
        self.take(REST_OF_LINE)
        while self.at < len(self.text) and not re.match(r"[#a-zA-Z-]", self.text[self.at]):
            self.take(REST_OF_LINE)
        return Junk(start, self.at)

    def entries(self):
        found = []
        while self.at < len(self.text):
            entry = self.attempt(self.entry)
            if entry:
                found.append(entry)
            elif self.follows("#"):
                self.take(REST_OF_LINE)
            elif self.attempt(self.blank_block) is None:
                found.append(self.junk())
        return found


def read(text):
    """The messages, terms and Junks of a source, in order."""
    return Reader(text).entries()


# ---- the text of a pattern

def text_of_words(piece, common):
    return " " * ((piece[1] or 0) - common if piece[1] is not None else 0) + piece[2]


def elements_of(pieces):
    """The elements of a pattern, with its common indent taken off: a line end is a text of its own, or ends the text before it."""
    indents = [piece[1] for piece in pieces if piece[0] == "words" and piece[1] is not None]
    common = min(indents, default=0)
    found, is_fed = [], False
    for number, piece in enumerate(pieces):
        if piece[0] == "line":
            found += [("text", "\n")] * (piece[1] - is_fed)
        elif piece[0] == "hole":
            found.append(("place", piece[1]))
        else:
            text = text_of_words(piece, common)
            is_fed = piece[3] and number + 1 < len(pieces) and pieces[number + 1][0] == "line"
            if text or is_fed:
                found.append(("text", text + "\n" * is_fed))
            continue
        is_fed = False
    while found and found[0] == ("text", "\n"):
        del found[0]
    if found and found[-1][0] == "text":
        last = found.pop()[1].rstrip(" ")
        if last:
            found.append(("text", last))
    return tuple(found)


# ---- places in a text

def line_of(text, at):
    return 1 + text.count("\n", 0, at)


def column_of(text, at):
    """In characters, from 1 on."""
    return at - text.rfind("\n", 0, at)
