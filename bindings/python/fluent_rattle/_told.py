"""Errors of the library, which come as records: a letter, an id and a name, with a zero byte after both."""
from typing import List, NamedTuple

from .errors import FluentCyclicReferenceError, FluentFormatError, FluentReferenceError


class Told(NamedTuple):
    """An error as the library tells it."""

    letter: str
    id: str
    name: str

    def exception(self) -> FluentFormatError:
        text = _EXCEPTIONS[self.letter].format(self.id, self.name)
        if self.letter == "c":
            return FluentCyclicReferenceError(text)
        return (FluentFormatError if self.letter in "dp" else FluentReferenceError)(text)

    def line(self) -> str:
        return "Resolver error: " + _LINES[self.letter].format(self.id, self.name)


# What an error of each letter is called by fluent.runtime, and by the library.
_EXCEPTIONS = {
    "f": "Unknown function: {0}",
    "m": "Unknown message: {0}",
    "a": "Unknown attribute: {0}.{1}",
    "t": "Unknown term: -{0}",
    "b": "Unknown attribute: -{0}.{1}",
    "v": "Unknown external: {0}",
    "n": "No pattern: {0}",
    "d": "No default variant",
    "c": "Cyclic reference",
    "p": "Too many placeables",
}
_LINES = {
    **_EXCEPTIONS,
    "f": "Unknown function: {0}()",
    "v": "Unknown variable: ${0}",
    "n": "No value: {0}",
    "d": "No default",
    "c": "Cyclical dependency detected",
}


def told_of(records: bytes) -> List[Told]:
    if not records:
        return []
    parts = records.decode("utf-8").split("\0")
    return [Told(first[0], first[1:], name) for first, name in zip(parts[::2], parts[1::2])]
