"""Records, which arguments, questions and answers are made of: a kind of one byte, and a name and a value, each after its length
in four bytes, the lowest first."""
from typing import Iterator, NamedTuple, Tuple


class Record(NamedTuple):
    kind: bytes
    name: bytes
    value: bytes

    def written(self) -> bytes:
        return self.kind + sized(self.name) + sized(self.value)


def sized(text: bytes) -> bytes:
    """A text after its length."""
    return len(text).to_bytes(4, "little") + text


def take_sized(data: bytes, at: int) -> Tuple[bytes, int]:
    """The text behind a length, and where what comes next begins."""
    start = at + 4
    end = start + int.from_bytes(data[at:start], "little")
    return data[start:end], end


def records(data: bytes, at: int = 0) -> Iterator[Record]:
    while at < len(data):
        kind = data[at : at + 1]
        name, at = take_sized(data, at + 1)
        value, at = take_sized(data, at)
        yield Record(kind, name, value)


def utf8(text: str, what: str) -> bytes:
    """The bytes of a text. A lone surrogate has none, and is a ValueError."""
    if not isinstance(text, str):
        raise TypeError(f"{what} is a str, not {type(text).__name__}")
    try:
        return text.encode("utf-8")
    except UnicodeEncodeError as error:
        raise ValueError(f"{what} has a lone surrogate at {error.start}") from None


def lent(text: str, what: str) -> Tuple[bytes, int]:
    """The bytes of a text, and how many they are."""
    sent = utf8(text, what)
    return sent, len(sent)
