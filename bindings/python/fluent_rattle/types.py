"""Values of messages, by the names of fluent.runtime.types: numbers and dates with their options, what is not there, and what a
program's own types are made of."""
import dataclasses
import warnings
from dataclasses import dataclass
from datetime import date, datetime
from decimal import Decimal
from typing import Any, ClassVar, Dict, Optional, TypeVar, Union

__all__ = [
    "DateFormatOptions",
    "FluentDate",
    "FluentDateTime",
    "FluentDateType",
    "FluentDecimal",
    "FluentFloat",
    "FluentInt",
    "FluentNone",
    "FluentNumber",
    "FluentType",
    "NumberFormatOptions",
    "fluent_date",
    "fluent_number",
]


class FluentType:
    """What a message can be given beside texts. A type of your own has this one above it, and its own `format`."""

    def format(self, locale: Any) -> str:
        """The text of this value. `locale` is a babel.Locale, or a language's tag where Babel is not installed."""
        raise NotImplementedError


class FluentNone(FluentType):
    """A value that is not there. It is shown by its name."""

    def __init__(self, name: Optional[str] = None) -> None:
        self.name = name

    def __eq__(self, other: object) -> bool:
        return isinstance(other, FluentNone) and self.name == other.name

    def __hash__(self) -> int:
        return hash(self.name)

    def __repr__(self) -> str:
        return f"FluentNone({self.name!r})"

    def format(self, locale: Any) -> str:
        return self.name or "???"


def _check(name: str, value: object, *values: Optional[str]) -> None:
    if value not in values:
        raise ValueError(f"{name} is one of {', '.join(map(repr, values))}, and not {value!r}")


# The least and the most of each count of digits, as ECMA-402 has them.
DIGITS = {
    "minimumIntegerDigits": (1, 21),
    "minimumFractionDigits": (0, 100),
    "maximumFractionDigits": (0, 100),
    "minimumSignificantDigits": (1, 21),
    "maximumSignificantDigits": (1, 21),
}


@dataclass(frozen=True)
class NumberFormatOptions:
    """How a number is shown, and by which of its language's rules it chooses a variant (`type`)."""

    style: str = "decimal"
    currency: Optional[str] = None
    currencyDisplay: str = "symbol"
    useGrouping: bool = True
    minimumIntegerDigits: Optional[int] = None
    minimumFractionDigits: Optional[int] = None
    maximumFractionDigits: Optional[int] = None
    minimumSignificantDigits: Optional[int] = None
    maximumSignificantDigits: Optional[int] = None
    type: str = "cardinal"

    def __post_init__(self) -> None:
        _check("style", self.style, "decimal", "currency", "percent")
        _check("currencyDisplay", self.currencyDisplay, "symbol", "code", "name")
        _check("type", self.type, "cardinal", "ordinal")
        if self.style == "currency" and self.currency is None:
            raise ValueError("a style of currency wants a currency")
        # FTL has no truth values: it says 0 or "false".
        grouping: object = self.useGrouping
        object.__setattr__(self, "useGrouping", bool(grouping) and grouping != "false")
        for name in DIGITS:
            object.__setattr__(self, name, self._count(name))

    def _count(self, name: str) -> Optional[int]:
        value, (least, most) = getattr(self, name), DIGITS[name]
        if value is None:
            return None
        if not isinstance(value, (int, float, Decimal)):
            raise TypeError(f"{name} is a number, and not {value!r}")
        if not least <= value <= most:
            raise ValueError(f"{name} is from {least} to {most}, and not {value}")
        return int(value)


Options = TypeVar("Options", NumberFormatOptions, "DateFormatOptions")


def _merged(options: Options, given: Dict[str, Any]) -> Options:
    return dataclasses.replace(options, **given) if given else options


class FluentNumber(FluentType):
    """A number with options. It is an int, a float or a Decimal too."""

    default_number_format_options: ClassVar[NumberFormatOptions] = NumberFormatOptions()
    options: NumberFormatOptions = default_number_format_options

    def __new__(cls, value: Any, **kwargs: Any) -> "FluentNumber":
        made: FluentNumber = super().__new__(cls, value)  # type: ignore[call-arg]
        made.options = _merged(getattr(value, "options", cls.default_number_format_options), kwargs)
        return made

    def format(self, locale: Any) -> str:
        if isinstance(locale, str):
            return str(self)
        from ._babel import format_number

        return format_number(self, locale)


class FluentInt(FluentNumber, int):
    pass


class FluentFloat(FluentNumber, float):
    pass


class FluentDecimal(FluentNumber, Decimal):
    pass


Number = Union[int, float, Decimal]


def fluent_number(number: Union[Number, FluentNumber, FluentNone], **kwargs: Any) -> Union[FluentNumber, FluentNone]:
    """A number with options: fluent_number(5, style="currency", currency="EUR")."""
    if isinstance(number, FluentNone) or (isinstance(number, FluentNumber) and not kwargs):
        return number
    if isinstance(number, int):
        return FluentInt(number, **kwargs)
    if isinstance(number, float):
        return FluentFloat(number, **kwargs)
    if isinstance(number, Decimal):
        return FluentDecimal(number, **kwargs)
    raise TypeError(f"a number is an int, a float or a Decimal, not {type(number).__name__}")


STYLES = (None, "full", "long", "medium", "short")

# What a DATETIME may be asked for, and what is shown of it.
SUPPORTED_DATE_OPTIONS = ("dateStyle", "timeStyle", "timeZone")


@dataclass(frozen=True)
class DateFormatOptions:
    """How a date is shown."""

    timeZone: Optional[str] = None
    hour12: Optional[bool] = None
    weekday: Optional[str] = None
    era: Optional[str] = None
    year: Optional[str] = None
    month: Optional[str] = None
    day: Optional[str] = None
    hour: Optional[str] = None
    minute: Optional[str] = None
    second: Optional[str] = None
    timeZoneName: Optional[str] = None
    dateStyle: Optional[str] = None
    timeStyle: Optional[str] = None

    def __post_init__(self) -> None:
        _check("dateStyle", self.dateStyle, *STYLES)
        _check("timeStyle", self.timeStyle, *STYLES)


class FluentDateType(FluentType):
    """A date, or a date with a time of day, with options."""

    options: DateFormatOptions = DateFormatOptions()

    def _set_options(self, source: object, given: Dict[str, Any]) -> None:
        if "timeStyle" in given and not isinstance(self, datetime):
            raise TypeError("a date without a time of day has no timeStyle")
        self.options = _merged(getattr(source, "options", DateFormatOptions()), given)
        for name in given:
            if name not in SUPPORTED_DATE_OPTIONS:
                warnings.warn(f"the option {name} of a date is not shown")

    def format(self, locale: Any) -> str:
        if isinstance(locale, str):
            return str(self)
        from ._babel import format_date

        return format_date(self, locale)


class FluentDate(FluentDateType, date):
    @classmethod
    def from_date(cls, dt_obj: date, **kwargs: Any) -> "FluentDate":
        made = cls(dt_obj.year, dt_obj.month, dt_obj.day)
        made._set_options(dt_obj, kwargs)
        return made


class FluentDateTime(FluentDateType, datetime):
    @classmethod
    def from_date_time(cls, dt_obj: datetime, **kwargs: Any) -> "FluentDateTime":
        made = cls(
            dt_obj.year, dt_obj.month, dt_obj.day, dt_obj.hour, dt_obj.minute, dt_obj.second, dt_obj.microsecond,
            tzinfo=dt_obj.tzinfo, fold=dt_obj.fold,
        )
        made._set_options(dt_obj, kwargs)
        return made


def fluent_date(dt: Union[date, datetime, FluentDateType, FluentNone], **kwargs: Any) -> Union[FluentDateType, FluentNone]:
    """A date with options: fluent_date(now, dateStyle="long", timeZone="Europe/Warsaw")."""
    if isinstance(dt, FluentNone) or (isinstance(dt, FluentDateType) and not kwargs):
        return dt
    if isinstance(dt, datetime):
        return FluentDateTime.from_date_time(dt, **kwargs)
    if isinstance(dt, date):
        return FluentDate.from_date(dt, **kwargs)
    raise TypeError(f"a date is a date or a datetime, not {type(dt).__name__}")


def native_to_fluent(value: Any) -> Any:
    """A number or a date of Python as its type of Fluent; any other value as it is."""
    if isinstance(value, FluentType):
        return value
    if isinstance(value, (int, float, Decimal)):
        return fluent_number(value)
    return fluent_date(value) if isinstance(value, date) else value
