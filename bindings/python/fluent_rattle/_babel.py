"""Numbers and dates as Babel shows them, with the options of Fluent. It is imported where Babel is installed alone."""
import copy
from datetime import datetime, timezone
from decimal import Decimal, localcontext
from typing import Any, Iterable, Optional, Tuple, cast

from babel import Locale, UnknownLocaleError
from babel import dates, numbers

from .types import FluentDateType, FluentNumber, NumberFormatOptions


def locale_of(tags: Iterable[str]) -> Locale:
    """The locale of the first tag that Babel knows, or else its root."""
    for tag in tags:
        try:
            return Locale.parse(tag.replace("-", "_"))
        except (UnknownLocaleError, ValueError):
            continue
    return Locale("root")


# A number with more digits than this before or behind its point is shown as it is typed.
MOST_DIGITS = 400


def format_number(number: FluentNumber, locale: Locale) -> str:
    value = Decimal(str(number))
    if not value.is_finite():
        return "NaN" if value.is_nan() else "-∞" if value < 0 else "∞"
    if abs(value.adjusted()) > MOST_DIGITS:
        return str(number)
    with localcontext() as context:
        context.prec = 3 * MOST_DIGITS
        return _shown(value, number.options, locale)


def _shown(value: Decimal, options: NumberFormatOptions, locale: Locale) -> str:
    if options.style == "currency":
        return _currency(value, options, locale)
    formats = locale.percent_formats if options.style == "percent" else locale.decimal_formats
    shown: str = _with_options(formats[None], value, options).apply(value, locale)
    return shown


def _currency(value: Decimal, options: NumberFormatOptions, locale: Locale) -> str:
    currency = cast(str, options.currency)
    digits = numbers.get_currency_precision(currency)
    if options.currencyDisplay == "name":
        pattern = _with_options(locale.decimal_formats[None], value, options, (digits, digits))
        named: str = numbers.format_currency(
            value, currency, format=pattern, locale=locale, currency_digits=False, format_type="name")
        return named
    pattern = _with_options(locale.currency_formats["standard"], value, options, (digits, digits))
    if options.currencyDisplay == "code":
        pattern.prefix, pattern.suffix = _coded(pattern.prefix), _coded(pattern.suffix)
    shown: str = pattern.apply(value, locale, currency=currency, currency_digits=False)
    return shown


def _coded(parts: Iterable[str]) -> Tuple[str, ...]:
    """What stands around an amount, with the currency's code in place of its sign."""
    return tuple(part.replace("¤", "¤¤") for part in parts)


def _with_options(
    base: Any, value: Decimal, options: NumberFormatOptions, fraction: Optional[Tuple[int, int]] = None
) -> Any:
    """A pattern of Babel as options want it for a value. Babel's own stay as they are."""
    pattern = copy.copy(base)
    if not options.useGrouping:
        pattern.grouping = numbers.parse_pattern("0").grouping
    least, most = options.minimumSignificantDigits, options.maximumSignificantDigits
    if least is None and most is None:
        if options.minimumIntegerDigits is not None:
            pattern.int_prec = (options.minimumIntegerDigits, pattern.int_prec[1])
        pattern.frac_prec = _fraction(options, fraction or pattern.frac_prec)
    elif value:
        pattern.pattern, pattern.int_prec = "@", (least or 1, max(least or 1, most or 21))
    else:
        # Babel takes the zero before the point for none of the digits.
        pattern.frac_prec = ((least or 1) - 1,) * 2
    return pattern


def _fraction(options: NumberFormatOptions, usual: Tuple[int, int]) -> Tuple[int, int]:
    """The least and the most digits of a fraction. Of the two, the one that is not given makes room for the other."""
    least, most = options.minimumFractionDigits, options.maximumFractionDigits
    if least is None:
        return usual if most is None else (min(usual[0], most), most)
    return least, max(least, usual[1] if most is None else most)


def format_date(value: FluentDateType, locale: Locale) -> str:
    options = value.options
    shown: Any = _in_zone(value, options.timeZone) if isinstance(value, datetime) else value
    day: str = dates.format_date(shown, format=options.dateStyle or "medium", locale=locale)
    if options.timeStyle is None:
        return day
    time: str = dates.format_time(shown, format=options.timeStyle, locale=locale)
    if options.dateStyle is None:
        return time
    both: str = dates.get_datetime_format(options.dateStyle, locale=locale)
    return both.replace("'", "").format(time, day)


def _in_zone(value: datetime, zone: Optional[str]) -> datetime:
    """A time in the zone of a name. One that says no zone is of UTC."""
    if value.tzinfo is None:
        value = value.replace(tzinfo=timezone.utc)
    return value if zone is None else value.astimezone(dates.get_timezone(zone))
