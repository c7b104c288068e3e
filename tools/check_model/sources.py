"""Makes sources: small ones whose references are well, wild or many, and damaged ones. The same number always makes the same."""
import random

MESSAGES = ["a", "b", "c", "about", "open-file", "x_1", "Q", "menu"]
TERMS = ["brand", "t", "vendor", "a"]
ATTRIBUTES = ["x", "label", "title"]
VARIABLES = ["n", "m", "user", "case"]
NAMES = ["one", "other", "few", "many", "male", "female", "x", "genitive"]
NUMBERS = ["0", "1", "2", "5", "1.0", "-3", "0.50", "18446744073709551616"]
TEXTS = ["x", "Open", "Otwórz plik", "日本語", "𝄞 clef", "a  b", "“so”", "it's", "1.5", "-> no", "=", "# sharp", "back\\slash", '"quoted"', "é\u0301", "tab\there", "\u2068"]
STARTS = ["[x] ", "*", ".x = ", "}", "{", "- ", "# "]
ESCAPES = ["\\\\", '\\"', "\\u00e9", "\\U01F602", "\\u2068", "plain", "{ not }", "ż"]
SIGNS = list("{}[]().-*$#=:,\"\\>\r\n \t") + ["->", "é", "\x00", "\u2028", "\u00a0", "\r\n", "{ ", " }"]
WRONG_ESCAPES = ["\\x", "\\u12", "\\"]


class Maker:
    """Makes one file. Where it is tame, what it refers to was made before and is there."""

    def __init__(self, rng, is_tame, before):
        self.rng, self.is_tame, self.made = rng, is_tame, before

    def one_in(self, count):
        return self.rng.randrange(count) == 0

    def blank(self):
        return self.rng.choice([" ", " ", " ", "", "  ", "\n ", "\n    "])

    # ---- expressions

    def string(self):
        parts = [self.rng.choice(ESCAPES) for _ in range(self.rng.randrange(3))]
        if not self.is_tame and self.one_in(20):
            parts.append(self.rng.choice(WRONG_ESCAPES))
        return '"' + "".join(parts) + '"'

    def literal(self):
        return self.string() if self.one_in(2) else self.rng.choice(NUMBERS)

    def named(self):
        name = self.rng.choice(VARIABLES + ["minimumFractionDigits", "type"])
        return f"{name}:{self.blank()}{self.literal()}"

    def arguments(self, depth):
        given = [self.inline(depth + 1) for _ in range(self.rng.choice([0, 0, 1, 1, 2]))]
        names = {}
        for _ in range(self.rng.choice([0, 1, 1, 2])):
            named = self.named()
            if not self.is_tame or named.split(":")[0] not in names:
                names[named.split(":")[0] if self.is_tame else len(names)] = named
        return "(" + self.blank() + f",{self.blank()}".join(given + list(names.values())) + self.rng.choice(["", "", " ", ","] if given or names else [""]) + ")"

    def known(self, kind):
        """Something of a kind that was made, as (NAME, ATTRIBUTE)."""
        found = [one[1:] for one in self.made if one[0] == kind]
        return self.rng.choice(found) if found else None

    def message(self):
        if self.is_tame:
            found = self.known("message")
            return None if found is None else ".".join(filter(None, found))
        return self.rng.choice(MESSAGES + ["gone"]) + ("." + self.rng.choice(ATTRIBUTES) if self.one_in(3) else "")

    def term(self, depth, has_attribute=False):
        if self.is_tame:
            found = self.known("term attribute" if has_attribute else "term")
            if found is None:
                return None
            text = "-" + ".".join(filter(None, found))
        else:
            text = "-" + self.rng.choice(TERMS + ["gone"]) + ("." + self.rng.choice(ATTRIBUTES) if has_attribute or self.one_in(12) else "")
        return text + (self.arguments(depth) if self.one_in(3) and depth < 3 else "")

    def function(self, depth):
        name = "NUMBER" if self.is_tame and not self.one_in(15) else self.rng.choice(["NUMBER", "DATETIME", "F", "Q"])
        return name + self.rng.choice(["", "", " "]) + self.arguments(depth)

    def inline(self, depth):
        made = None
        kind = self.rng.randrange(12)
        if kind < 3:
            made = self.message()
        elif kind < 5:
            made = self.term(depth)
        elif kind < 6 and depth < 3:
            made = self.function(depth)
        elif kind < 7:
            made = self.literal()
        elif kind < 8 and depth < 4:
            made = self.placeable(depth + 1)
        return made or "$" + self.rng.choice(VARIABLES)

    def selector(self, depth):
        kind = self.rng.randrange(8)
        made = None
        if kind == 0:
            made = self.literal()
        elif kind == 1:
            made = self.term(depth, True)
        elif kind == 2:
            made = self.function(depth)
        elif kind == 3 and not self.is_tame and self.one_in(4):
            made = self.message()
        return made or "$" + self.rng.choice(VARIABLES)

    def key(self):
        return self.rng.choice(NAMES) if not self.one_in(3) else self.rng.choice(NUMBERS)

    def select(self, depth):
        count = self.rng.randrange(1, 4)
        default = self.rng.randrange(count)
        lines = []
        for number in range(count):
            is_default = number == default if self.is_tame or not self.one_in(30) else self.one_in(2)
            lines.append(("   *[" if is_default else "    [") + f"{self.key()}]{self.rng.choice([' ', '', '  '])}{self.pattern(depth + 1)}")
        return f"{self.selector(depth)}{self.rng.choice([' ', '', chr(10) + '  '])}->\n" + "\n".join(lines) + "\n" + self.rng.choice(["", "  "])

    def placeable(self, depth):
        inside = self.select(depth) if self.one_in(5) and depth < 3 else self.inline(depth)
        return "{" + self.blank() + inside + ("" if inside.endswith("\n") else self.blank()) + "}"

    # ---- entries

    def pattern(self, depth):
        parts = []
        for _ in range(self.rng.choice([1, 1, 1, 2, 2, 3])):
            kind = self.rng.randrange(8)
            if kind < 4:
                parts.append(self.placeable(depth))
            elif kind < 7 or not parts:
                parts.append(self.rng.choice(TEXTS))
            else:
                start = "" if self.is_tame or not self.one_in(6) else self.rng.choice(STARTS)
                parts.append("\n" * self.rng.choice([1, 1, 2]) + " " * self.rng.choice([4, 6, 8]) + start + "line")
        first = "\n    " if self.one_in(10) and not parts[0].startswith("\n") else ""
        return first + "".join(parts)

    def attributes(self, kind, name):
        lines, names = [], []
        for _ in range(self.rng.choice([0, 0, 0, 1, 1, 2, 3])):
            attribute = self.rng.choice(ATTRIBUTES)
            if attribute in names and self.is_tame and not self.one_in(10):
                continue
            lines.append(f"\n{' ' * self.rng.choice([4, 4, 1, 2])}.{attribute}{self.rng.choice([' ', '', '  '])}={self.rng.choice([' ', ''])}{self.pattern(0)}")
            names.append(attribute)
        return "".join(lines), names

    def entry(self):
        kind = self.rng.choice(["message", "message", "term"])
        name = self.rng.choice(TERMS if kind == "term" else MESSAGES + ["NUMBER"] * self.one_in(20))
        taken = {one[1] for one in self.made}
        if name in taken and self.is_tame and not self.one_in(15):
            return ""
        value = self.pattern(0)
        lines, names = self.attributes(kind, name)
        if kind == "message" and names and self.one_in(4):
            value = ""
        if name not in taken and name != "NUMBER":
            self.made += [(kind, name, None)] * (value != "")
            self.made += [("message" if kind == "message" else "term attribute", name, one) for one in names]
        return ("-" if kind == "term" else "") + f"{name} ={' ' if value else ''}{value}{lines}\n"

    def source(self):
        parts = []
        for _ in range(self.rng.randrange(1, 9)):
            parts.append(self.entry())
            if self.one_in(8):
                parts.append(self.rng.choice(["# a comment\n", "\n", "\n\n", "### group\n", "#no comment\n", "  \n"]))
            if not self.is_tame and self.one_in(10):
                parts.append(self.rng.choice(["no entry\n", "= x\n", "a\n", "-b =\n", "  indented = x\n", "{ $x }\n", "a = {\n", "ü = x\n"]))
        return "".join(parts)


# ---- other shapes

def large(rng):
    """Messages that open many placeables, each of those before it."""
    lines, names = [f"m0 = {'{ $n }' * rng.randrange(1, 12)}\n"], ["m0"]
    for number in range(1, rng.randrange(2, 6)):
        name = f"m{number}"
        inside = "".join(f"{{ {rng.choice(names)} }}" for _ in range(rng.randrange(1, 9)))
        if rng.randrange(3) == 0:
            other = "".join(f"{{ {rng.choice(names)} }}" for _ in range(rng.randrange(1, 6)))
            pairs = [(inside, other), (other, inside)][:rng.randrange(1, 3)]
            inside = "".join(f"{{ $n ->\n    [one] {one}\n   *[other] {two}\n}}" for one, two in pairs)
        lines.append(f"{name} = {inside}\n")
        names.append(name)
    return "".join(lines)


def deep(rng):
    """Placeables or calls in one another, about as deep as is read."""
    count = rng.randrange(97, 104)
    if rng.randrange(2):
        return "a = " + "{ " * count + "b" + " }" * count + "\n"
    return "a = { " + "NUMBER(" * (count - 1) + "$n" + ")" * (count - 1) + " }\nb = { a }\n"


# ---- damages

def damaged(rng, text):
    for _ in range(rng.randrange(1, 5)):
        at, lines = rng.randrange(len(text) + 1), text.split("\n")
        kind, line = rng.randrange(9), rng.randrange(len(lines))
        if kind < 2:
            text = text[:at] + rng.choice(SIGNS) + text[at:]
        elif kind < 4:
            text = text[:at] + text[at + rng.choice([1, 1, 1, 2, 5]):]
        elif kind < 6:
            text = text[:at] + rng.choice(SIGNS) + text[at + 1:]
        elif kind == 6:
            text = "\n".join(lines[:line] + [lines[line]] * 2 + lines[line + 1:])
        elif kind == 7:
            text = "\n".join(lines[:line] + lines[line + 1:])
        else:
            text = text[:at]
    return text


def other_ends(rng, text):
    if rng.randrange(6) == 0:
        return text.replace("\n", "\r\n")
    if rng.randrange(15) == 0:
        return "".join(part + rng.choice(["\n", "\r\n", "\r"]) for part in text.split("\n"))
    return text


def file_of(rng, before):
    shape = rng.randrange(20)
    if shape == 0:
        text = large(rng)
    elif shape == 1 and rng.randrange(3) == 0:
        text = deep(rng)
    else:
        text = Maker(rng, shape < 12, before).source()
    if rng.randrange(3) == 0:
        text = damaged(rng, text)
    content = other_ends(rng, text).encode()
    if rng.randrange(100) == 0:
        content = b"\xef\xbb\xbf" + content
    if rng.randrange(150) == 0:
        at = rng.randrange(len(content) + 1)
        content = content[:at] + rng.choice([b"\xff", b"\xc3", b"\xed\xa0\x80"]) + content[at:]
    return content


def files_of(seed, number):
    """The files of a case: their names and bytes."""
    rng, before = random.Random(f"{seed} {number}"), []
    return [(name, file_of(rng, before)) for name in ["a.ftl", "b.ftl", "c.ftl"][:rng.choice([1, 1, 1, 1, 1, 1, 2, 2, 3])]]
