#!/usr/bin/env python3
"""Patterns that are as deep as the grammar lets them be, in chains of references of each kind, and what Fluent's rules say
that they are shown as. `tools/hostile` gives them to fluent_show; `tools/depths.py FILE` writes them for c/depths.c, which
asks the library for C with each of LIMITS. What is wanted comes from the rules below alone, by functions that call
themselves: Python 3.11 takes no stack for these, however deep they are."""
import gc
import re
import sys
from collections import namedtuple
from itertools import cycle

LIMITS = (1, 100, 10_000)
LEVELS = 100
PATTERNS = 110
WORDS = {"b": "1"}
sys.setrecursionlimit(10_000_000)
# Nothing here refers to itself, and looking for that takes longer than all else.
gc.disable()

# ---- expressions, of which all but Select are inline; a pattern is a list of texts and of expressions, its placeables

String = namedtuple("String", "text")
Number = namedtuple("Number", "digits")
Function = namedtuple("Function", "id positional")
Message = namedtuple("Message", "id attribute")
Term = namedtuple("Term", "id attribute positional named")
Variable = namedtuple("Variable", "id")
Nested = namedtuple("Nested", "expression")
Select = namedtuple("Select", "selector variants")
Variant = namedtuple("Variant", "key pattern is_default")


def call_source(positional, named):
    parts = [source_of(one) for one in positional] + [f"{name}: {digits}" for name, digits in named.items()]
    return f"({', '.join(parts)})" if parts else ""


def source_of(x):
    match x:
        case String():
            return f'"{x.text}"'
        case Number():
            return x.digits
        case Function():
            return x.id + call_source(x.positional, {})
        case Message() | Variable():
            return fallback(x)
        case Term():
            return fallback(x) + call_source(x.positional, x.named)
        case Nested():
            return "{" + source_of(x.expression) + "}"
        case Select():
            variants = (f"\n {'*' * v.is_default}[{v.key}] {pattern_source(v.pattern)}" for v in x.variants)
            return f"{source_of(x.selector)} ->{''.join(variants)}\n "


def pattern_source(pattern):
    return "".join(part if isinstance(part, str) else "{" + source_of(part) + "}" for part in pattern)


def fallback(x):
    """What stands for an expression that can't be resolved."""
    while isinstance(x, (Nested, Select)):
        x = x.expression if isinstance(x, Nested) else x.selector
    match x:
        case String():
            return f'"{x.text}"'
        case Number():
            return x.digits
        case Function():
            return f"{x.id}()"
        case Variable():
            return f"${x.id}"
    return "-" * isinstance(x, Term) + x.id + (f".{x.attribute}" if x.attribute else "")


# ---- what the rules say

TOO_MANY, CYCLIC = "Too many placeables", "Cyclical dependency detected"


class Formatting:
    """One call for a pattern: a text of text, a Number, or None for the value of what has none."""

    def __init__(self, entries, limit, has_functions):
        self.entries, self.errors, self.path = entries, [], set()
        # Whether each function but NUMBER is one that answers its first argument. Else there is none.
        self.has_functions = has_functions
        # How many placeables may still be opened, and None once one more was tried.
        self.left = limit

    def fails(self, error, text):
        self.errors.append(error)
        return text

    def loses(self, x):
        name = fallback(x)
        kind = "attribute" if getattr(x, "attribute", None) else type(x).__name__.lower()
        return self.fails(f"Unknown {kind}: {name}", "{" + name + "}")

    def pattern(self, pattern, values):
        """Each placeable takes one from what is left; at the limit each that is open ends with its fallback."""
        text = ""
        for part in pattern:
            if self.left is None:
                break
            if isinstance(part, str):
                text += part
            elif self.left == 0:
                self.left = self.fails(TOO_MANY, None)
            else:
                self.left -= 1
                inside = self.text(part, values)
                if self.left is None:
                    inside += "{" + fallback(part) + "}"
                is_bare = len(pattern) == 1 or isinstance(part, (Message, Term, String))
                text += inside if is_bare else f"\u2068{inside}\u2069"
        return text

    def refers(self, x, values):
        """The pattern of a message or a term, or what it stands for where it is missing, or stands in itself."""
        pattern, source = self.entries.get((type(x), x.id, x.attribute), (None, None))
        if pattern is None:
            return self.loses(x)
        # Patterns are the same where their content is.
        if source in self.path:
            return self.fails(CYCLIC, "{" + fallback(x) + "}")
        self.path.add(source)
        text = self.pattern(pattern, values)
        self.path.remove(source)
        return text

    def text(self, x, values):
        match x:
            case Message():
                return self.refers(x, values)
            case Term():
                self.values(x.positional, values)
                return self.refers(x, Local({name: Number(digits) for name, digits in x.named.items()}))
            case Nested():
                return self.text(x.expression, values)
            case Select():
                value = self.value(x.selector, values)
                return (self.pattern(chosen(value, x.variants), values))
            case Function(id="NUMBER"):
                value = self.value(x, values)
                return value.digits if value else fallback(x)
            case Function() if self.has_functions:
                value = self.value(x, values)
                return fallback(x) if value is None else value.digits if isinstance(value, Number) else value
            case Function():
                self.values(x.positional, values)
                return self.loses(x)
        value = self.value(x, values)
        if value is None:
            return "{" + fallback(x) + "}"
        return value.digits if isinstance(value, Number) else value

    def value(self, x, values):
        match x:
            case String():
                return x.text
            case Number():
                return x
            case Variable():
                if x.id not in values and not isinstance(values, Local):
                    self.loses(x)
                return values.get(x.id)
            case Function():
                first = next(iter(self.values(x.positional, values)), None)
                is_answer = isinstance(first, Number) if x.id == "NUMBER" else self.has_functions
                return first if is_answer else None
        return self.text(x, values)

    def values(self, several, values):
        return [self.value(x, values) for x in several]


class Local(dict):
    """The variables of a term: that one is missing is no error."""


def chosen(value, variants):
    """The first variant whose key is the value, or a word for it in English, else the default."""
    keys = {value.digits, "one" if value.digits == "1" else "other"} if isinstance(value, Number) else {value}
    match = [one for one in variants if one.key in keys] or [one for one in variants if one.is_default]
    return match[0].pattern


Product = namedtuple("Product", "name source entries")


def wanted(product, limit, has_functions=False):
    """The text of the message `a`, and the lines of its errors."""
    values = {name: Number(digits) for name, digits in WORDS.items()}
    call = Formatting(product.entries, limit, has_functions)
    text = call.refers(Message("a", None), values)
    return text, "".join(f"Resolver error: {error}\n" for error in call.errors)


# ---- what is nested: an expression, and how many placeables and lists of arguments are in one another in it

Deep = namedtuple("Deep", "expression levels")


def braces(deep):
    return Deep(Nested(deep.expression), deep.levels + 1)


def inline(deep):
    return braces(deep) if isinstance(deep.expression, Select) else deep


def function(name, deep):
    return Deep(Function(name, [inline(deep).expression]), inline(deep).levels + 1)


def term(attribute, deep):
    return Deep(Term("t", attribute, [inline(deep).expression], {}), inline(deep).levels + 1)


def selector(deep):
    return Deep(Select(deep.expression, [Variant("a", ["A"], False), Variant("o", ["o"], True)]), deep.levels)


def variant(key, deep):
    other = [] if key == "other" else [Variant("other", ["no"], True)]
    variants = [Variant(key, ["<", deep.expression, ">"], not other), *other]
    return Deep(Select(Variable("b"), variants), deep.levels + 1)


NESTS = {
    "placeables": braces,
    "arguments of terms": lambda deep: term(None, deep),
    "placeables in arguments of terms": lambda deep: term(None, braces(deep)),
    "arguments of unknown functions": lambda deep: function("F", deep),
    "arguments of NUMBER": lambda deep: function("NUMBER", deep),
    "variants that are the default": lambda deep: variant("other", deep),
    "variants of a plural": lambda deep: variant("one", deep),
    "selectors that are functions": lambda deep: selector(function("F", braces(deep))),
    "selectors that are attributes of terms": lambda deep: selector(term("a", braces(deep))),
}

# ---- what refers to the pattern of an id, and how an entry has that pattern

REFERENCES = {
    "messages": ("ID = P", lambda id: Deep(Message(id, None), 0)),
    "attributes of messages": ("ID =\n .a = P", lambda id: Deep(Message(id, "a"), 0)),
    "terms": ("-ID = P", lambda id: Deep(Term(id, None, [], {}), 0)),
    "terms with arguments": ("-ID = P", lambda id: Deep(Term(id, None, [Variable("b")], WORDS), 1)),
    "attributes of terms": ("-ID = x\n .a = P", lambda id: selector(Deep(Term(id, "a", [], {}), 0))),
    "messages in arguments": ("ID = P", lambda id: function("F", Deep(Message(id, None), 0))),
    "messages in selectors": ("ID = P", lambda id: selector(term("a", Deep(Message(id, None), 0)))),
    "messages in variants": ("ID = P", lambda id: variant("one", Deep(Message(id, None), 0))),
}


def nested(wraps, deep):
    """An expression within as much of each as may be in one another, in turn, in the placeable of a pattern."""
    for wrap in cycle(wraps):
        more = wrap(deep)
        if more.levels >= LEVELS:
            break
        deep = more
    return deep.expression


def chain(name, wraps, way, count, last):
    """Patterns of which each refers to the next from its innermost place. The last one has a text there, or refers to the
    second or to none; then a text stands behind each placeable, which may so stand between marks."""
    entry, refer = REFERENCES[way]
    kind, attribute = Term if entry.startswith("-") else Message, "a" if ".a" in entry else None
    behind = [] if last == "text" else ["."]
    innermost = [refer(f"m{i}") for i in range(1, count)]
    innermost.append({"text": Deep(String("x"), 0), "none": refer("none"), "cycle": refer("m1")}[last])
    like = pattern_source([nested(wraps, refer("ID")), *behind])
    entries = {(Term, "t", None): (["t"], "t"), (Term, "t", "a"): (["a"], "a")}
    source = "-t = t\n .a = a\n"
    for i, deep in enumerate(innermost):
        pattern = [nested(wraps, deep), *behind]
        text = like.replace("ID", f"m{i + 1}") if i < count - 1 else pattern_source(pattern)
        entries[(kind, f"m{i}", attribute) if i else (Message, "a", None)] = pattern, text
        source += (entry.replace("ID", f"m{i}") if i else "a = P").replace("P", text) + "\n"
    return Product(f"{name}, {count} {way}, at last {last}", source, entries)


def products():
    lasts, turn = ("text", "none", "cycle"), 0
    kinds = {**{name: [wrap] for name, wrap in NESTS.items()}, "all in turn": NESTS.values()}
    for name, wraps in kinds.items():
        for way in REFERENCES:
            yield chain(name, wraps, way, PATTERNS, lasts[turn % 3])
            turn += 1
    for way in REFERENCES:
        yield chain("no nesting", [], way, LIMITS[-1] + 10, "text")
    for name in ("arguments of terms", "arguments of NUMBER", "selectors that are attributes of terms"):
        yield chain(name, kinds[name], "messages", 1000, "none")


# ---- for c/depths.c


def sized(text):
    return len(text.encode()).to_bytes(4, "little") + text.encode()


def record(kind, *texts):
    return kind + bytes([len(texts)]) + b"".join(map(sized, texts))


def arguments(words):
    """Numbers by their names, as the library takes them."""
    return "".join("n" + sized(name).decode() + sized(digits).decode() for name, digits in words.items())


def asks_too_often(product, limit):
    """Whether so many questions come of one text, which is then made as often, that it takes seconds."""
    return limit == LIMITS[-1] and re.search("^arguments of unknown functions|messages in arguments", product.name)


def main():
    with open(sys.argv[1], "wb") as file:
        for product in products():
            file.write(record(b"s", product.source))
            for limit in LIMITS:
                name, values = f"{product.name}, with a limit of {limit}", arguments(WORDS)
                file.write(record(b"f", name, str(limit), values, *wanted(product, limit)))
                if not asks_too_often(product, limit):
                    file.write(record(b"a", name + ", and asked", str(limit), values, *wanted(product, limit, True)))


if __name__ == "__main__":
    main()
