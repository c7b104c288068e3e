"""The values of one call: what the program gives, as records for the library, and back in questions."""
from datetime import date
from decimal import Decimal
from typing import Any, Callable, Dict, List, Mapping, NamedTuple, Optional, Tuple

from ._records import Record, utf8
from .types import FluentNone, FluentNumber, FluentType, NumberFormatOptions, fluent_number, native_to_fluent

# Shows a value of the program's own where it is sent, or None: then it is shown where a message places it.
Shown = Optional[Callable[[FluentType], str]]

# How many digits of a fraction a number has at most.
_PLACES = 18


def digits_of(number: Any) -> Optional[str]:
    """A number by its digits alone, or None where it has more of them than the library can hold. A float without a fraction
    has no point."""
    if isinstance(number, int):
        return str(int(number)) if abs(number) < 2**64 else None
    if isinstance(number, float) and number.is_integer():
        return digits_of(int(number))
    exact = Decimal(float.__repr__(number)) if isinstance(number, float) else number
    exponent = exact.as_tuple().exponent
    if not isinstance(exponent, int) or exponent < -_PLACES or exact.adjusted() > 19 or exact.copy_abs() >= 2**64:
        return None
    return format(Decimal(exact), "f")


# What of a number's options the library reads. The currency comes last: all behind it is its text.
_OPTIONS = (
    "style", "currencyDisplay", "useGrouping", "minimumIntegerDigits", "minimumFractionDigits", "maximumFractionDigits",
    "minimumSignificantDigits", "maximumSignificantDigits", "type", "currency",
)
_USUAL = NumberFormatOptions()
_CURRENCY = ";currency="


def _options_of(number: Any) -> str:
    """The options of a number that differ from the usual ones, each behind a semicolon."""
    options = number.options if isinstance(number, FluentNumber) else FluentNumber.default_number_format_options
    if options is _USUAL:
        return ""
    found = ((name, getattr(options, name)) for name in _OPTIONS)
    return "".join(f";{name}={_option_text(value)}" for name, value in found if value != getattr(_USUAL, name))


def _option_text(value: object) -> str:
    return str(value).lower() if isinstance(value, bool) else str(value)


class _Read(NamedTuple):
    """A number as it comes back. The library pads the digits of its fraction, and says how many they are."""

    value: Decimal
    fraction: int
    options: Tuple[Tuple[str, str], ...]


def _read(value: bytes) -> _Read:
    before, has_currency, currency = value.decode("utf-8").partition(_CURRENCY)
    digits, *pairs = before.split(";")
    options = {name: text for name, _, text in (pair.partition("=") for pair in pairs if pair)}
    fraction = options.pop("minimumFractionDigits", None)
    if has_currency:
        options["currency"] = currency
    places = len(digits.partition(".")[2]) if fraction is None else min(int(fraction), _PLACES)
    return _Read(Decimal(digits), places, tuple(sorted(options.items())))


def _option_value(name: str, text: str) -> Any:
    if name == "useGrouping":
        return text == "true"
    return int(text) if name.endswith("Digits") else text


def _number_of(read: _Read) -> Any:
    """A number of a message: its digits behind the point are no option of it."""
    options = {name: _option_value(name, text) for name, text in read.options}
    return fluent_number(float(read.value) if read.fraction else int(read.value), **options)


class Values:
    """What was sent in a call, by what comes back of it."""

    def __init__(self, shown: Shown) -> None:
        self._shown = shown
        self._own: List[FluentType] = []
        self._numbers: Dict[_Read, Any] = {}
        # Numbers of messages, and how they came.
        self._found: List[Tuple[FluentNumber, bytes]] = []

    def arguments(self, args: Mapping[str, Any], unsupported: Optional[Dict[str, Exception]]) -> List[Record]:
        """The arguments of a call. One that is no value is a TypeError, and one with a lone surrogate a ValueError, which is
        raised, or else left in `unsupported`."""
        records = []
        for name, value in args.items():
            written = utf8(name, "the name of an argument")
            try:
                records.append(self.record(written, value, f"the argument {name!r}"))
            except (TypeError, ValueError) as error:
                if unsupported is None:
                    raise
                is_type = isinstance(error, TypeError)
                unsupported[name] = TypeError(f"Unsupported external type: {name}, {type(value)}") if is_type else error
        return records

    def record(self, name: bytes, value: Any, what: str) -> Record:
        """A value with a name. What is no text, number, date or FluentType is a TypeError, as a value of `what`."""
        if isinstance(value, str):
            return Record(b"t", name, utf8(value, what))
        if isinstance(value, (int, float, Decimal)):
            sent = self._sent(value)
            if sent is not None:
                return Record(b"n", name, sent)
        if isinstance(value, (int, float, Decimal, date, FluentType)):
            return Record(b"c", name, self._token(native_to_fluent(value)))
        raise TypeError(f"{what} is a str, a number, a date or a FluentType, not {type(value).__name__}")

    def _sent(self, number: Any) -> Optional[bytes]:
        """A number as the library takes it, or None where it can't hold it. One of a message goes back as it came."""
        for found, came in self._found:
            if found is number:
                return came
        digits = digits_of(number)
        if digits is None:
            return None
        sent = (digits + _options_of(number)).encode("utf-8")
        self._numbers[_read(sent)] = number
        return sent

    def _token(self, value: FluentType) -> bytes:
        """A value of the program's own by its place among them, with its text behind it."""
        places = [place for place, other in enumerate(self._own) if other is value]
        if not places:
            places = [len(self._own)]
            self._own.append(value)
        text = self._shown(value) if self._shown else ""
        return b"%d\n" % places[0] + text.encode("utf-8")

    def answer(self, value: Any, what: str) -> Record:
        """What a function gives: also None, for no value, and a FluentNone without a name, for an error."""
        if value is None:
            return Record(b"o", b"", b"")
        if isinstance(value, FluentNone) and value.name is None:
            return Record(b"e", b"", b"")
        return self.record(b"", value, what)

    def value(self, record: Record) -> Any:
        """The value of a record of a question."""
        if record.kind == b"t":
            return record.value.decode("utf-8")
        if record.kind == b"n":
            return self._number(record.value)
        if record.kind == b"c":
            return self._own[int(record.value.partition(b"\n")[0])]
        return None if record.kind == b"o" else FluentNone()

    def _number(self, came: bytes) -> FluentNumber:
        """The number that was sent so, or else one of a message."""
        read = _read(came)
        if read not in self._numbers:
            self._numbers[read] = _number_of(read)
            self._found.append((self._numbers[read], came))
        number: FluentNumber = native_to_fluent(self._numbers[read])
        return number
