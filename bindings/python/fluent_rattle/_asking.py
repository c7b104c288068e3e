"""What a program adds to the messages of a bundle, and the answers that it gives to the library's questions."""
import warnings
from typing import Any, Callable, Dict, List, Mapping, NamedTuple, Optional, Tuple, Union

from ._records import Record, records, take_sized, utf8
from ._values import Values
from .types import FluentDateType, FluentNone, FluentType

Functions = Mapping[str, Callable[..., Any]]
Formatter = Callable[[Any], Optional[str]]
Transform = Callable[[str], str]


class Additions(NamedTuple):
    """Functions by their names, what shows values, what changes the texts of messages, and the locale of values."""

    functions: Functions
    formatter: Optional[Formatter]
    transform: Optional[Transform]
    locale: Any
    # Whether Babel is the formatter; where that is wanted and isn't there, False.
    has_babel: Optional[bool] = None

    def shown(self, value: FluentType) -> str:
        """A value of the program's own as a text."""
        if self.has_babel is False and isinstance(value, FluentDateType):
            warnings.warn("Babel is not installed, so dates are shown as str shows them", RuntimeWarning, stacklevel=2)
        text = self.formatter(value) if self.formatter else None
        return value.format(self.locale) if text is None else text


def additions_of(
    tags: List[str], functions: Functions, formatter: Union[str, Formatter, None], transform: Optional[Transform]
) -> Additions:
    """What a program adds, where "babel" may stand for its formatter."""
    if isinstance(formatter, str) and formatter != "babel":
        raise ValueError(f"formatter is 'babel', a function or None, not {formatter!r}")
    if transform is not None and not callable(transform):
        raise TypeError(f"transform is a function, not {transform!r}")
    if isinstance(formatter, str):
        return _with_babel(tags, functions, transform)
    if formatter is not None and not callable(formatter):
        raise TypeError(f"formatter is a function, not {formatter!r}")
    return Additions(functions, formatter, transform, tags[0] if tags else "")


def _with_babel(tags: List[str], functions: Functions, transform: Optional[Transform]) -> Additions:
    try:
        from ._babel import locale_of
    except ImportError:
        return additions_of(tags, functions, None, transform)._replace(has_babel=False)
    locale = locale_of(tags)

    def formatter(value: Any) -> Optional[str]:
        # What is not there has a text of the library's.
        return value.format(locale) if isinstance(value, FluentType) and not isinstance(value, FluentNone) else None

    return Additions(functions, formatter, transform, locale, True)


class Failure(NamedTuple):
    """What was raised by a function, or where a value was to be shown."""

    where: str
    error: Exception

    def line(self) -> str:
        return f"{self.where} failed: {type(self.error).__name__}: {self.error}"


class Answers:
    """Answers questions of one call about its values, and keeps what failed meanwhile."""

    def __init__(self, additions: Additions) -> None:
        self._additions = additions
        self.values = Values(None if additions.formatter else self._shown)
        self.failures: List[Failure] = []
        # The answers of the transform.
        self.changed = b""

    def _shown(self, value: FluentType) -> str:
        """The text of a value of the program's own. The library has none for it."""
        try:
            text = self._additions.shown(value)
            utf8(text, "the text of a value")
            return text
        except Exception as error:
            self.failures.append(Failure("a value", error))
            return "???"

    def known(self, arguments: List[Record]) -> bytes:
        """The answers that are known before they are asked for: Babel leaves texts as they are."""
        if not self._additions.has_babel:
            return b""
        values = (each._replace(name=b"").written() for each in arguments if each.kind == b"t")
        return b"".join(Record(b"o", b"v" + value, b"").written() for value in values)

    def answer(self, question: bytes) -> bytes:
        """The record that answers a question."""
        asks = {b"f": self._called, b"v": self._formatted, b"x": self._changed}[question[:1]]
        kind, value = asks(question)
        written = Record(kind, question, value).written()
        if question[:1] == b"x":
            self.changed += written
        return written

    def _called(self, question: bytes) -> Tuple[bytes, bytes]:
        written, at = take_sized(question, 1)
        name = written.decode("utf-8")
        positional: List[Any] = []
        named: Dict[str, Any] = {}
        for record in records(question, at):
            value = self.values.value(record)
            if record.name:
                named[record.name.decode("utf-8")] = value
            else:
                positional.append(value)
        try:
            given = self._additions.functions[name](*positional, **named)
            answer = self.values.answer(given, f"what {name} gives")
        except Exception as error:
            self.failures.append(Failure(f"{name}()", error))
            return b"e", b""
        return answer.kind, answer.value

    def _formatted(self, question: bytes) -> Tuple[bytes, bytes]:
        record = next(records(question, 1))
        value, formatter = self.values.value(record), self._additions.formatter
        if record.kind == b"c":
            return b"t", self._shown(value).encode("utf-8")
        try:
            text = formatter(value) if formatter else None
            return (b"o", b"") if text is None else (b"t", utf8(text, "the text of a value"))
        except Exception as error:
            self.failures.append(Failure("a value", error))
            return b"o", b""

    def _changed(self, question: bytes) -> Tuple[bytes, bytes]:
        text = take_sized(question, 1)[0]
        transform = self._additions.transform
        try:
            changed = transform(text.decode("utf-8")) if transform else None
            return b"t", text if changed is None else utf8(changed, "a text that was changed")
        except Exception as error:
            self.failures.append(Failure("the transform", error))
            return b"t", text

