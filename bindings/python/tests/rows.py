"""Writes the rows of the fixtures for c/rows.c, which asks the library from C: python3 -m tests.rows FILE"""
import re
import sys
from collections import Counter
from itertools import groupby

from .asked import LEAST, fixtures, reason_in_c, told, told_of_each
from .fixtures import unescaped

KINDS = {"@star": (b"c", "star\n*"), "@none": (b"o", ""), "@error": (b"e", "")}

# The lines of errors, and the letters of their records.
ERRORS = {
    r"Unknown function: (.*)\(\)": "f",
    r"Unknown message: (.*)": "m",
    r"Unknown attribute: -(.*)\.(.*)": "b",
    r"Unknown attribute: (.*)\.(.*)": "a",
    r"Unknown term: -(.*)": "t",
    r"Unknown variable: \$(.*)": "v",
    r"No value: (.*)": "n",
    r"No default": "d",
    r"Cyclical dependency detected": "c",
    r"Too many placeables": "p",
}


def sized(text):
    text = text if isinstance(text, bytes) else text.encode("utf-8")
    return len(text).to_bytes(4, "little") + text


def record(kind, *texts):
    """A letter, how many texts follow, and these."""
    return kind + bytes([len(texts)]) + b"".join(map(sized, texts))


def lines(texts):
    return "".join(text + "\n" for text in texts)


def recorded(error):
    """The record of an error."""
    for line, letter in ERRORS.items():
        found = re.fullmatch("Resolver error: " + line, error)
        if found:
            id, name = (*found.groups(), "", "")[:2]
            return f"{letter}{id}\0{name}\0"
    raise ValueError(error)


def argument(name, word):
    if word.startswith('"'):
        return b"t" + sized(name) + sized(unescaped(word[1:-1]))
    kind, value = KINDS.get(word, (b"n", word))
    return kind + sized(name) + sized(value)


def functions_of(settings):
    """The functions that a bundle is given: the built-in one, without a kind, and those of the fixture."""
    own = [words.partition(" ")[2].split(" = ", 1) for words in settings.objects if words.startswith("function ")]
    return own if "builtins off" in settings.objects else [("NUMBER", ""), *own]


def opened(settings, is_bare):
    """What opens one more bundle."""
    isolating, bare = "y" if settings.isolating else "", "y" if is_bare else ""
    if settings.cardinal is None and settings.ordinal is None:
        yield record(b"o", settings.language, isolating, bare)
    elif is_bare:
        raise ValueError("rules as texts come with the built-in function")
    else:
        yield record(b"r", settings.cardinal or "", settings.ordinal or "", isolating)
    if settings.limit != 100:
        yield record(b"l", str(settings.limit))


def added(functions, there):
    """What adds functions to a bundle that has these ids. Each whose name is there must be refused."""
    for name, kind in functions:
        yield record(b"n" if kind == "" else b"u", name, kind, "y" if name in there else "")
        there.add(name)


def made(file, bundle):
    """What makes a bundle, and compares what is told of its sources."""
    settings, functions, there = bundle.settings, functions_of(bundle.settings), set()
    first, last = ([], functions) if "objects NUMBER" in settings.objects else (functions, [])
    is_bare = ("NUMBER", "") not in first
    yield from opened(settings, is_bare)
    if not is_bare:
        there.add(first.pop(0)[0])
    yield from added(first, there)
    for source, report in told_of_each(bundle.sources, there):
        name = f"{file}: a source of {len(source.text)} characters"
        yield record(b"t", name, source.text, "y" if source.is_overriding else "", lines(report))
    yield from added(last, there)
    for words in settings.objects:
        kind, _, what = words.partition(" ")
        if kind in ("formatter", "transform"):
            yield record(b"v" if kind == "formatter" else b"x", what)


def asked(file, row):
    where, name = f"{file}:{row.line}", row.attribute or ""
    if row.sign == "#absent":
        return record(b"h", where, row.id)
    if row.sign == "#attributes":
        return record(b"b", where, row.id, lines(row.text.split()))
    if row.sign == "#none":
        return record(b"m", where, row.id, name, b"")
    arguments = b"".join(argument(*pair) for pair in row.arguments)
    return record(b"f", where, row.id, name, arguments, row.text, lines(row.errors), "".join(map(recorded, row.errors)))


def records(counts):
    for file, reader in fixtures():
        for _, rows in groupby(reader.rows, key=lambda row: id(row.bundle)):
            rows = list(rows)
            counts.update(reason_in_c(row) or "asked" for row in rows)
            rows = [row for row in rows if not reason_in_c(row)]
            if rows:
                for bundle in rows[0].bundle.links():
                    yield from made(file, bundle)
                yield from (asked(file, row) for row in rows)
                yield record(b"c")


def main():
    counts = Counter()
    written = list(records(counts))
    told_of = sum(one.startswith(b"t") for one in written)
    with open(sys.argv[1], "wb") as file:
        file.writelines(written)
    print(f"{told(counts)}\n{told_of} reports of sources")
    return counts["asked"] < LEAST["rows from C"] or told_of < LEAST["reports from C"]


if __name__ == "__main__":
    sys.exit(main())
