"""What is wrong in sources of a language, for tools and tests."""
import ctypes
import json
import os
from typing import Iterable, List, Mapping, NamedTuple, Optional, Tuple, Union

from ._calls import ROOM, fault
from ._library import Checked, Status, load
from ._records import Record, lent, utf8


class Finding(NamedTuple):
    """What is wrong, and where: line and column are counted from 1, columns in characters. The severity is "error" or "warning",
    the kind as in `./fluent check --help`, and the entry the value or the attribute that it is of, or empty."""

    file: str
    line: int
    column: int
    severity: str
    kind: str
    entry: str
    text: str


class Findings(List[Finding]):
    """All that is wrong, by source and place.

    is_clean   whether no text of the sources ever shows an error, where its variables and functions are given
    """

    def __init__(self, found: Iterable[Finding], is_clean: bool) -> None:
        super().__init__(found)
        self.is_clean = is_clean


Sources = Mapping[str, str]


def check(
    sources: Sources,
    language: str = "",
    *,
    beside: Optional[Sources] = None,
    references: Optional[Sources] = None,
    functions: Iterable[str] = (),
    library: Union[str, "os.PathLike[str]", None] = None,
) -> Findings:
    """What is wrong in sources, which have their texts by their names and count as one.

    language     the tag whose plural categories selects are held against; without one none are looked at
    beside       sources that are loaded before them, such as a brand's terms
    references   what they were translated from, if they are to be compared with that
    functions    the names of the program's functions

    MemoryError: an allocation failed. ValueError: a text has a lone surrogate.
    """
    runs = *_sent(sources), *_sent(beside or {}), *_sent(references or {}), *_sent({name: "" for name in functions})
    text, told = _told(load(library), (*lent(language, "a language"), *runs, True))
    return Findings((Finding(**each) for each in json.loads(text)), told.is_clean)


def _sent(texts: Sources) -> Tuple[bytes, int]:
    """Records of texts by their names, and how many bytes they have."""
    records = [Record(b"t", utf8(name, "a name"), utf8(text, "a source")) for name, text in texts.items()]
    sent = b"".join(record.written() for record in records)
    return sent, len(sent)


def _told(library: "ctypes.CDLL", words: Tuple[Union[bytes, int], ...]) -> Tuple[bytes, Checked]:
    room, told = ROOM, Checked()
    while True:
        text = (ctypes.c_char * room)()
        status: int = library.fluent_check(*words, text, room, told)
        if status == Status.OK:
            return ctypes.string_at(text, told.text), told
        if status != Status.TOO_SMALL:
            raise fault(status, None)
        room = told.text
