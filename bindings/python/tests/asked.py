"""Which rows of the fixtures the library is asked, and why not the others."""
import re

from . import TOP
from .fixtures import Reader

DATA = TOP / "tests/test_fixtures/data"
NUMBER = re.compile(r"[+-]?(?:[0-9]+(?:\.[0-9]*)?|\.[0-9]+)")

# How many rows are asked at least, and how many reports: with fewer, some would be passed over that were asked before.
LEAST = {"rows from Python": 763, "rows from C": 781, "reports": 174, "reports from C": 224}

OBJECTS = {
    "function": "the message may call a function",
    "objects": "the built-in function comes after the sources",
    "formatter": "a bundle has a formatter",
    "transform": "a bundle has a transform",
    "builtins": "the bundle has no built-in function",
}
SIGNS = {"#<": "a writer fails, and the library writes to none"}


def fixtures():
    """Each file, but for those that are wrong on purpose."""
    for path in sorted(DATA.glob("*.ftl")):
        if not path.with_suffix(".report").exists():
            yield path.name, Reader(path.read_bytes().decode("utf-8"))


def words_for(message, bundle):
    """Each word that may matter to a message: its id, and all that stand in entries of these ids, and so on."""
    entries = {}
    for source in bundle.sources:
        for entry in re.split(r"^(?=[A-Za-z-])", source.text, flags=re.MULTILINE):
            found = re.findall(r"[A-Za-z][A-Za-z0-9_-]*", entry)
            entries.setdefault(found[0] if found else "", set()).update(found)
    words, left = set(), {message}
    while left:
        words |= left
        left = set().union(*(entries.get(word, ()) for word in left)) - words
    return words


def reason_of(bundle, message, kinds=tuple(OBJECTS)):
    """Why a bundle that is asked for a message can't be made, or None, where objects of these kinds can't be had. Functions that
    no word names don't matter."""
    for kind, name in (words.split(" ")[:2] for words in bundle.settings.objects):
        name = "NUMBER" if kind in ("builtins", "objects") else name
        if kind not in kinds:
            continue
        if kind not in ("function", "objects", "builtins") or name in words_for(message, bundle):
            return OBJECTS[kind]
    return None


def reason(row, kinds=tuple(OBJECTS), values=()):
    """Why a row is passed over, or None. `values` are those of @ that can be had."""
    for bundle in row.bundle.links():
        why = reason_of(bundle, row.id, kinds)
        if why:
            return why
    if row.sign in SIGNS:
        return SIGNS[row.sign]
    for _, word in row.arguments:
        if word.startswith("@") and word not in values:
            return "an argument is @" + re.match("[a-z]+", word[1:])[0]
    return None


def reason_in_python(row):
    """The same where values, functions, formatters and transforms are those of Python."""
    if any(NUMBER.fullmatch(word) and word.endswith(".") for _, word in row.arguments):
        return reason(row, ("objects", "builtins"), ("@star",)) or "no Python number ends with a point"
    if has_formatter(row) and any(NUMBER.fullmatch(word) and not is_held(word) for _, word in row.arguments):
        return "a formatter of Python gets a number that the library can't hold"
    return reason(row, ("objects", "builtins"), ("@star",))


def reason_in_c(row):
    """The same where they are those of C."""
    return reason(row, (), ("@star", "@none", "@error"))


def has_formatter(row):
    return any(words.split(" ")[0] == "formatter" for bundle in row.bundle.links() for words in bundle.settings.objects)


def is_held(word):
    """Whether the library holds a number: below 2^64, with at most 18 places."""
    whole, _, places = word.lstrip("+-").partition(".")
    return int(whole or 0) < 2**64 and len(places) <= 18


def line_of(text, start):
    """The number of the line of a byte."""
    return text.encode("utf-8")[:start].count(b"\n") + 1


def ids_of(source):
    """The lines of a source that begin an entry, with its id. In what can't be read there is none."""
    unread = {n for a, b in source.junk for n in range(line_of(source.text, a), line_of(source.text, b - 1) + 1)}
    for number, line in enumerate(source.text.split("\n"), 1):
        entry = re.match(r"-?([A-Za-z][A-Za-z0-9_-]*) *=", line)
        if entry and number not in unread:
            yield number, entry[1]


def reports(bundle):
    """Each source, and the lines that must tell of it: what can't be read, and then the entries that are left. Where
    functions of the application's may be left too, there is None in place of lines."""
    if bundle.settings.objects:
        return [(source, None) for source in bundle.sources]
    return list(told_of_each(bundle.sources, {"NUMBER"}))


def left_of(source, there):
    """The ids of a source that are there already, with their lines, where it overrides none. Each of its ids is there from
    then on."""
    left = []
    for number, name in ids_of(source):
        if name in there and not source.is_overriding:
            left.append((number, name))
        there.add(name)
    return left


def told_of_each(sources, there):
    """Each source, and what must tell of it, where these ids are there before the first."""
    for source in sources:
        left, wanted = left_of(source, there), [words for words in source.left if not words.startswith("function ")]
        if [name for _, name in left] != [words.split('"')[1] for words in wanted]:
            raise ValueError(f"{left} are left, and not {wanted}")
        told_of = [f"{line_of(source.text, a)}: unreadable entry at bytes {a}..{b}" for a, b in source.junk]
        yield source, told_of + [
            f"{number}: Attempt to override an existing {words.replace(' ', ': ', 1)}."
            for (number, _), words in zip(left, wanted)]


def told(counts):
    """How many rows were asked, and why the others were not."""
    lines = [f"{sum(counts.values())} rows, {counts['asked']} asked; passed over, and why:"]
    return "\n".join(lines + [f"    {count:4} {why}" for why, count in counts.most_common() if why != "asked"])
