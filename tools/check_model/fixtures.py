"""Asks the rows of tests/test_fixtures/data, which are written by hand (FIXTURES.md there), of the model."""
import os
import re

from . import meaning, syntax

PLAIN = re.compile(r"#+(?: |\Z)")
DIRECTIVE = re.compile(r"(#(?:[=<+:!@]|none|absent|attributes|junk|left|end|---|===))(?: (.*)|\Z)", re.S)
ESCAPE = re.compile(r'\\(?:([\\"])|(n)|u\{([0-9a-fA-F]+)\})')
FORMATTED = {"kinds", "brackets"}


class Left(Exception):
    """A row that the model doesn't cover."""


def unescaped(text):
    return ESCAPE.sub(lambda m: m[1] or ("\n" if m[2] else chr(int(m[3], 16))), text)


def words_of(text):
    """Words with blanks between, of which those in quotes are kept whole."""
    return re.findall(r'(?:[^ "]|"(?:[^"\\]|\\.)*")+', text)


def around_bar(text):
    found = re.match(r'((?:[^"]|"(?:[^"\\]|\\.)*")*?)(?:^| )\| ?(.*)\Z', text, re.S)
    return (found[1], found[2]) if found else ("", text)


def value_of(text):
    if text.startswith('"'):
        return ("text", unescaped(text[1:-1]))
    if text.startswith("@number:"):
        number, *options = text[len("@number:"):].split(";")
        return meaning.merged(meaning.value_of(number), {name: meaning.value_of(given) for name, given in (one.split("=") for one in options)})
    return {"@star": meaning.CUSTOM, "@none": meaning.NO_VALUE, "@error": meaning.ERROR}.get(text) or meaning.value_of(text)


def length_of(positional):
    is_text = len(positional) == 1 and positional[0][0] == "text"
    return meaning.number_value(len(positional[0][1].encode()) * meaning.ONE) if is_text else meaning.ERROR


def function_of(kind):
    if kind.startswith('"'):
        return lambda positional, named: ("text", kind[1:-1])
    return {
        "none": lambda positional, named: meaning.NO_VALUE,
        "error": lambda positional, named: meaning.ERROR,
        "star": lambda positional, named: meaning.CUSTOM,
        "one": lambda positional, named: meaning.number_value(meaning.ONE),
        "first": lambda positional, named: (positional + [meaning.ERROR])[0],
        "second": lambda positional, named: (positional + [meaning.ERROR] * 2)[1],
        "named": lambda positional, named: named.get("x", meaning.ERROR),
        "length": lambda positional, named: length_of(positional),
    }[kind]


class Described:
    """A bundle of a fixture: its settings, its resources as [SOURCE, IS_OVERRIDING, JUNK, LEFT], its rows, and whether it goes on a chain."""

    def __init__(self, settings, resources, is_link):
        self.settings, self.resources, self.rows, self.is_link = settings, resources, [], is_link


def first_settings():
    return {"isolating": "on", "builtins": "on", "objects": "first", "transform": "none", "formatter": "none", "limit": "100", "plurals": "english"}


def set_one(settings, functions, words):
    word, _, rest = words.partition(" ")
    if word == "default":
        settings.clear()
        settings.update(first_settings())
        functions.clear()
    elif word == "function":
        functions.append(rest.split(" = "))
    elif word == "functions":
        functions.clear()
    elif word in ("cardinal", "ordinal"):
        settings["plurals"] = "of texts"
    else:
        settings[word] = rest


def read_fixture(text):
    """The bundles of a fixture."""
    settings, functions = first_settings(), []
    bundles = [Described({**settings, "functions": []}, [["", False, [], []]], False)]
    start, is_closed, above, at = 0, False, "", 0

    def close(end):
        if not is_closed:
            bundles[-1].resources[-1][0] = text[start:end]

    for line in text.split("\n"):
        begin, at = at, at + len(line) + 1
        line = line.removesuffix("\r")
        if not line.startswith("#") or PLAIN.match(line):
            found = re.match(r"[a-zA-Z][a-zA-Z0-9_-]*", line)
            above = found[0] if found else above
            continue
        sign, rest = DIRECTIVE.match(line).groups(default="")
        bundle = bundles[-1]
        if sign in ("#=", "#<"):
            asked, wanted = around_bar(rest)
            words = words_of(asked)
            target = words.pop(0) if words and "=" not in words[0] else ""
            bundle.rows.append([sign, target, above, words, unescaped(wanted), []])
        elif sign == "#+":
            bundle.rows[-1][4] += "\n" + unescaped(rest)
        elif sign == "#!":
            bundle.rows[-1][5].append(unescaped(rest))
        elif sign in ("#none", "#absent", "#attributes"):
            bundle.rows.append([sign, rest, above, [], "", []])
        elif sign in ("#junk", "#left"):
            bundle.resources[-1][2 + (sign == "#left")].append(rest)
        elif sign == "#end":
            close(begin - 1)
            is_closed = True
        elif sign == "#@":
            set_one(settings, functions, rest)
        elif sign in ("#---", "#==="):
            close(begin)
            is_closed, start = False, at
            if sign == "#---":
                bundle.resources.append(["", rest == "overriding", [], []])
            else:
                is_closed = rest == "again"
                bundles.append(Described({}, bundle.resources if rest == "again" else [["", False, [], []]], rest == "chain"))
            above = ""
        bundles[-1].settings = {**settings, "functions": list(functions)}
    close(len(text))
    return bundles


# ---- asking

def upper(text):
    return "".join(sign.upper() if sign.isascii() else sign for sign in text)


def bundle_of(described):
    """A bundle as it is set, and what was left of each resource, and of the functions."""
    settings, left = described.settings, []
    bundle = meaning.Bundle(False)
    bundle.isolates, bundle.limit = settings["isolating"] == "on", int(settings["limit"])
    if settings["transform"] == "upper":
        bundle.transform = upper

    def add_functions():
        names = [["NUMBER", meaning.number_function]] * (settings["builtins"] == "on") + [[name, function_of(kind)] for name, kind in settings["functions"]]
        return [f'function "{name}"' for name, call in names if not bundle.add_function(name, call)]

    functions = add_functions() if settings["objects"] == "first" else []
    for source, is_overriding, _, _ in described.resources:
        left.append([f'{entry.kind} "{entry.name}"' for entry in bundle.add(syntax.read(source), is_overriding)])
    if settings["objects"] == "last":
        left[-1] += add_functions()
    else:
        left[0] = functions + left[0]
    return bundle, left


def ranges_of(source):
    """The byte ranges of Junk."""
    return [f"{len(source[:one.start].encode())}..{len(source[:one.end].encode())}" for one in syntax.read(source) if one.kind == "junk"]


def target_in(chain, name, attribute):
    """The first bundle that has the value or the attribute, and its pattern."""
    for bundle in chain:
        target = bundle.target("message", name, attribute)
        if target[0] == "found":
            return bundle, target[1]
    return None


def answer_of(chain, settings, row):
    """What the model answers to a row, and what the row wants."""
    sign, target, above, words, text, errors = row
    name, _, attribute = target.partition(".")
    name, attribute = name or above, attribute or None
    if sign == "#absent":
        return chain[-1].entry("message", name), None
    if sign == "#attributes":
        return [one.name for one in chain[-1].entry("message", above).attributes], target.split()
    found = target_in(chain, name, attribute)
    if sign == "#none":
        return found, None
    if sign == "#<":
        raise Left
    if settings["plurals"] not in ("english", "en"):
        raise Left
    given, arguments = [word.partition("=") for word in words], {}
    for argument, _, value in given:
        arguments[argument] = value_of(value)
    left = meaning.format_pattern(found[0], found[1], arguments)
    return (left[1], errors) if settings["formatter"] in FORMATTED else (left, (text, errors))


def ask(path):
    """How many rows of a fixture agree with the model, which don't, and how many it doesn't cover."""
    with open(path, encoding="utf-8", newline="") as file:
        bundles = read_fixture(file.read())
    agree, wrong, uncovered, chain = 0, [], 0, []
    for described in bundles:
        bundle, left = bundle_of(described)
        chain = chain + [bundle] if described.is_link else [bundle]
        pairs = [(f"what is left of resource {number}", left[number], one[3]) for number, one in enumerate(described.resources)]
        pairs += [("Junk", ranges_of(one[0]), one[2]) for one in described.resources]
        for row in described.rows:
            try:
                pairs.append((" ".join([row[0], row[1] or row[2]] + row[3]), *answer_of(chain, described.settings, row)))
            except Left:
                uncovered += 1
        for what, came, wanted in pairs:
            agree += came == wanted
            if came != wanted:
                wrong.append(f"{os.path.basename(path)}: {what}: the model has {came!r}, the row {wanted!r}")
    return agree, wrong, uncovered
