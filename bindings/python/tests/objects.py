"""The functions, formatters and transforms that fixtures name."""
import re

from fluent_rattle import FluentNone, FluentType
from fluent_rattle.types import FluentNumber


class Star(FluentType):
    def format(self, locale):
        return "*"


def length(*positional, **_):
    is_text = len(positional) == 1 and isinstance(positional[0], str)
    return len(positional[0].encode("utf-8")) if is_text else FluentNone()


def placed(index):
    """A function that answers its positional value of an index."""
    return lambda *positional, **_: positional[index] if index < len(positional) else FluentNone()


FUNCTIONS = {
    "none": lambda *_, **__: None,
    "error": lambda *_, **__: FluentNone(),
    "star": lambda *_, **__: Star(),
    "one": lambda *_, **__: 1,
    "first": placed(0),
    "second": placed(1),
    "named": lambda *_, **named: named.get("x", FluentNone()),
    "length": length,
}


def kind_of(value):
    if value is None or isinstance(value, FluentNone):
        return "nothing" if value is None else "error"
    return "text" if isinstance(value, str) else "number" if isinstance(value, FluentNumber) else "custom"


def in_brackets(value):
    return f"[{value}]" if isinstance(value, str) else None


def upper(text):
    return re.sub("[a-z]+", lambda letters: letters[0].upper(), text)


def function(kind):
    if kind.startswith('"'):
        # It has no escapes.
        return lambda *_, **__: kind[1:-1]
    return FUNCTIONS[kind]


def objects(settings):
    """What a bundle with these settings is given, by the names of its arguments. The first function of a name stands."""
    functions = {}
    for words in settings.objects:
        kind, _, rest = words.partition(" ")
        name, _, answer = rest.partition(" = ")
        if kind == "function":
            functions.setdefault(name, function(answer))
    return {
        "functions": functions,
        "formatter": {"formatter kinds": kind_of, "formatter brackets": in_brackets}.get(word(settings, "formatter")),
        "transform": upper if "transform upper" in settings.objects else None,
    }


def word(settings, kind):
    return next((words for words in settings.objects if words.startswith(kind)), None)
