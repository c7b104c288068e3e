"""What patterns mean: which text and which errors come of a pattern and arguments (crates/fluent_semantics/specs: Walk, Meaning).

A value is ('text', TEXT), ('number', UNITS, OPTIONS), ('custom',), ('none',) or ('error',). Units are 10^-18, and options are pairs
of a name and a value in order, without those that stand as at first."""
import re

ONE = 10**18
SIGNS = ("\u2068", "\u2069")
ESCAPE = re.compile(r'\\(?:(["\\])|u([0-9a-fA-F]{4})|U([0-9a-fA-F]{6}))?')
CYCLE = "Cyclical dependency detected"
TOO_MANY = "Too many placeables"
LIMIT = 100
NO_VALUE, ERROR, CUSTOM = ("none",), ("error",), ("custom",)


# ---- texts and numbers

def character_of(match):
    if match[1]:
        return match[1]
    number = int(match[2] or match[3] or "fffd", 16)
    return "\ufffd" if 0xD800 <= number <= 0xDFFF or number > 0x10FFFF else chr(number)


def unescaped(source):
    return ESCAPE.sub(character_of, source)


def number_value(units, places=None):
    return ("number", units, () if places is None else (("minimumFractionDigits", places),))


def value_of(text):
    """The number that a text is, else the text."""
    found = re.fullmatch(r"([+-]?)([0-9]*)(?:(\.)([0-9]*))?", text)
    if not found or not (found[2] or found[4]) or int(found[2] or 0) >= 2**64 or len(found[4] or "") > 18:
        return ("text", text)
    size = int(found[2] or 0) * ONE + int((found[4] or "").ljust(18, "0"))
    return number_value(-size if found[1] == "-" else size, len(found[4]) if found[3] else None)


def fraction_of(units):
    """The digits of a fraction, without zeros at the end."""
    return str(abs(units) % ONE).rjust(18, "0").rstrip("0")


def least_places(value):
    return dict(value[2]).get("minimumFractionDigits")


def text_of_number(value):
    least, digits = least_places(value), fraction_of(value[1])
    whole = ("-" if value[1] < 0 else "") + str(abs(value[1]) // ONE)
    return whole if least is None and not digits else whole + "." + digits.ljust(min(least or 0, 18), "0")


def text_of(value):
    return {"text": lambda: value[1], "number": lambda: text_of_number(value), "custom": lambda: "*"}.get(value[0], lambda: "")()


def category_of(value):
    """By the rules of English."""
    digits, whole, size = fraction_of(value[1]), abs(value[1]) // ONE, abs(value[1])
    if dict(value[2]).get("type") != "ordinal":
        return "one" if whole == 1 and max(len(digits), min(least_places(value) or 0, 18)) == 0 else "other"
    if digits or size // ONE % 100 in (11, 12, 13):
        return "other"
    return {1: "one", 2: "two", 3: "few"}.get(size // ONE % 10, "other")


COUNTS = {"minimumIntegerDigits", "minimumFractionDigits", "maximumFractionDigits", "minimumSignificantDigits", "maximumSignificantDigits"}
WORDS = {"type": {"ordinal"}, "style": {"currency", "percent"}, "currencyDisplay": {"code", "name"}, "useGrouping": {"false"}}


def merged(value, named):
    """A number with options that named arguments give."""
    options = dict(value[2])
    for name, given in sorted(named.items()):
        if given[0] == "number" and name in COUNTS:
            count = 0 if given[1] < 0 else min(given[1] // ONE, 2**64 - 1)
            options[name] = min(count, 18) if name == "minimumFractionDigits" else count
        elif given[0] == "text" and name == "currency":
            options[name] = given[1]
        elif given[0] == "text" and name in WORDS:
            options.pop(name, None)
            if given[1] in WORDS[name]:
                options[name] = given[1]
    return ("number", value[1], tuple(sorted(options.items())))


def number_function(positional, named):
    return merged(positional[0], named) if positional and positional[0][0] == "number" else ERROR


def goes_to(value, key):
    """Whether a value is that of a variant's key."""
    wanted = ("text", key[1]) if key[0] == "name" else value_of(key[1])
    if wanted[0] == "text" and value[0] == "number":
        return wanted[1] == category_of(value)
    return wanted[0] in ("text", "number") and wanted == value


# ---- bundles

class Bundle:
    """What ids mean: an entry, or a function as ('function', CALL)."""

    def __init__(self, has_number=True):
        self.ids = {"NUMBER": ("function", number_function)} if has_number else {}
        self.isolates, self.limit, self.transform, self.shown = True, LIMIT, lambda text: text, text_of

    def add(self, entries, is_overriding=False):
        """Adds what is no Junk, and answers the entries that were left."""
        left = []
        for entry in entries:
            if entry.kind == "junk":
                continue
            if entry.name in self.ids and not is_overriding:
                left.append(entry)
            else:
                self.ids[entry.name] = entry
        return left

    def add_function(self, name, call):
        """Whether it was added."""
        if name in self.ids:
            return False
        self.ids[name] = ("function", call)
        return True

    def entry(self, kind, name):
        found = self.ids.get(name)
        return found if isinstance(found, object) and getattr(found, "kind", None) == kind else None

    def function(self, name):
        found = self.ids.get(name)
        return found[1] if isinstance(found, tuple) else None

    def target(self, kind, name, attribute):
        """The pattern of a message or a term: ('found', PATTERN), ('no value',) or ('unknown',)."""
        entry = self.entry(kind, name)
        if entry is None:
            return ("unknown",)
        if attribute is None:
            return ("no value",) if entry.value is None else ("found", entry.value)
        for one in entry.attributes:
            if one.name == attribute:
                return ("found", one.pattern)
        return ("unknown",)


# ---- fallbacks and errors

def dotted(name, attribute):
    return name if attribute is None else f"{name}.{attribute}"


def fallback(expression):
    kind = expression[0]
    if kind == "string":
        return f'"{expression[1]}"'
    if kind in ("nested", "select"):
        return fallback(expression[1])
    if kind == "function":
        return expression[1] + "()"
    if kind == "number":
        return expression[1]
    return {"message": "", "term": "-", "variable": "$"}[kind] + dotted(expression[1], expression[2] if kind != "variable" else None)


def lost(expression):
    """The error of a reference that finds nothing."""
    kind = "attribute" if expression[0] in ("message", "term") and expression[2] is not None else expression[0]
    return f"Unknown {kind}: {fallback(expression)}"


# ---- formatting

class Run:
    """One formatting call: its errors, and how many placeables may still be opened, or None once one more was tried."""

    def __init__(self, bundle):
        self.bundle, self.errors, self.budget = bundle, [], bundle.limit

    def pattern(self, environment, path, pattern):
        pieces = []
        for element in pattern:
            if self.budget is None:
                break
            if element[0] == "text":
                pieces.append(self.bundle.transform(element[1]))
            else:
                pieces.append(self.placeable(environment, path, element[1], len(pattern) == 1))
        return "".join(pieces)

    def placeable(self, environment, path, expression, is_alone):
        if self.budget == 0:
            self.errors.append(TOO_MANY)
            self.budget = None
            return ""
        self.budget -= 1
        text = self.expression(environment, path, expression)
        if self.budget is None:
            text += "{" + fallback(expression) + "}"
        is_bare = expression[0] in ("message", "term", "string")
        return text if is_bare or is_alone or not self.bundle.isolates else text.join(SIGNS)

    def expression(self, environment, path, expression):
        """The text of what stands in a placeable."""
        kind = expression[0]
        if kind == "select":
            return self.select(environment, path, expression)
        if kind == "nested":
            return self.expression(environment, path, expression[1])
        if kind == "string":
            return unescaped(expression[1])
        if kind in ("message", "term"):
            return self.reference(environment, path, expression)
        if kind == "number":
            return self.bundle.shown(value_of(expression[1]))
        if kind == "variable":
            found = environment[1].get(expression[1])
            return self.missing(environment, expression) if found is None else self.bundle.shown(found)
        positional, named = self.arguments(environment, path, expression[2])
        call = self.bundle.function(expression[1])
        if call is None:
            return self.fails(lost(expression), fallback(expression))
        answer = call(positional, named)
        return fallback(expression) if answer == ERROR else self.bundle.shown(answer)

    def select(self, environment, path, expression):
        value = self.value(environment, path, expression[1])
        for key, pattern, _ in expression[2]:
            if goes_to(value, key):
                return self.pattern(environment, path, pattern)
        return self.pattern(environment, path, next(pattern for _, pattern, is_default in expression[2] if is_default))

    def value(self, environment, path, expression):
        """The value of a selector or an argument."""
        kind = expression[0]
        if kind == "string":
            return ("text", unescaped(expression[1]))
        if kind == "number":
            return value_of(expression[1])
        if kind == "variable":
            found = environment[1].get(expression[1])
            if found is None:
                self.missing(environment, expression)
            return ERROR if found is None else found
        if kind == "function":
            positional, named = self.arguments(environment, path, expression[2])
            call = self.bundle.function(expression[1])
            return ERROR if call is None else call(positional, named)
        return ("text", self.expression(environment, path, expression))

    def arguments(self, environment, path, given):
        positional = [self.value(environment, path, one) for one in given[0]]
        return positional, {name: self.value(environment, path, one) for name, one in given[1]}

    def reference(self, environment, path, expression):
        kind, name, attribute = expression[:3]
        if kind == "term":
            named = self.arguments(environment, path, expression[3])[1] if expression[3] else {}
            environment = ("local", named)
        target = self.bundle.target(kind, name, attribute)
        if target[0] == "no value":
            return self.fails(f"No value: {name}", name)
        if target[0] == "unknown":
            return self.fails(lost(expression), fallback(expression))
        if target[1] in path:
            return self.fails(CYCLE, fallback(expression))
        return self.pattern(environment, path + [target[1]], target[1])

    def missing(self, environment, expression):
        """A variable that isn't given: an error only where it is the application's."""
        text = fallback(expression)
        return self.fails(lost(expression), text) if environment[0] == "application" else "{" + text + "}"

    def fails(self, error, text):
        self.errors.append(error)
        return "{" + text + "}"


def format_pattern(bundle, pattern, arguments):
    """The text and the errors of a pattern."""
    run = Run(bundle)
    text = run.pattern(("application", arguments), [pattern], pattern)
    return text, run.errors
