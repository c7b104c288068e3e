"""Numbers and dates as fluent.runtime shows them, by Babel. These tests are run where it is installed. "Not sure" marks what was
written down from memory and may be otherwise there."""
import unittest
import warnings
from datetime import date, datetime, timedelta, timezone
from decimal import Decimal
from unittest import mock

from fluent_rattle import FluentBundle, FluentLocalization, FluentResource, fluent_date, fluent_number
from fluent_rattle.types import FluentDateType, FluentInt, FluentNumber

try:
    from babel import Locale
except ImportError:
    Locale = None


def load_tests(loader, tests, pattern):
    if Locale:
        return tests
    print("there is no Babel here, so the tests of it are not run")
    return unittest.TestSuite()


def bundle(source, locales=("en-US",), **settings):
    made = FluentBundle(locales, use_isolating=False, **settings)
    made.add_resource(FluentResource(source))
    return made


def shown(source, args=None, locales=("en-US",), **settings):
    made = bundle("m = " + source, locales, **settings)
    return made.format_pattern(made.get_message("m").value, args)


def plain(text):
    """A text with plain blanks: newer tables of the CLDR have others."""
    return text.replace("\u202f", " ").replace("\xa0", " ")


class Documented(unittest.TestCase):
    def test_numbers(self):
        self.assertEqual(shown("You have { $points } points.", {"points": 1234567}), ("You have 1,234,567 points.", []))
        points = fluent_number(1234567, useGrouping=False)
        self.assertEqual(shown("You have { $points } points.", {"points": points}), ("You have 1234567 points.", []))

    def test_currencies(self):
        amount = fluent_number(1234.56, style="currency", currency="USD")
        self.assertEqual(shown("Your balance is { $amount }", {"amount": amount}), ("Your balance is $1,234.56", []))

    def test_dates(self):
        today = date(2018, 6, 16)
        self.assertEqual(shown("Today is { $today }", {"today": today}), ("Today is Jun 16, 2018", []))
        short = fluent_date(today, dateStyle="short")
        self.assertEqual(shown("Today is { $today }", {"today": short}), ("Today is 6/16/18", []))
        self.assertEqual(shown('Today is { DATETIME($today, dateStyle: "short") }', {"today": today}),
                         ("Today is 6/16/18", []))

    def test_zones(self):
        now = datetime(2018, 6, 17, 12, 15, 5, 677597)
        sent = fluent_date(now, timeZone="Europe/Moscow", dateStyle="medium", timeStyle="medium")
        self.assertEqual(plain(shown("Now is { $now }", {"now": sent})[0]), "Now is Jun 17, 2018, 3:15:05 PM")


class Numbers(unittest.TestCase):
    def shown(self, number, locale="en_US", **options):
        return plain(fluent_number(number, **options).format(Locale.parse(locale)))

    def test_types(self):
        for number in (1, 1.5, Decimal("1.5")):
            made = fluent_number(number)
            self.assertIsInstance(made, FluentNumber)
            self.assertIsInstance(made, type(number))
            self.assertEqual((made, made + 1), (number, number + 1))

    def test_kinds_of_numbers(self):
        for number, text in ((123456, "123,456"), (123456.0, "123,456"), (Decimal("123456.0"), "123,456"), (True, "1"),
                             (1.23456, "1.235"), (-0.5, "-0.5"), (2**64, "18,446,744,073,709,551,616"),
                             (1e21, "1" + ",000" * 7), (1e-9, "0"), (float("inf"), "∞"), (float("-inf"), "-∞"), (float("nan"), "NaN"),
                             (Decimal("1E+999999999"), "1E+999999999"), (Decimal("1E-999999999"), "1E-999999999")):
            self.assertEqual(shown("{ $n }", {"n": number}), (text, []))

    def test_languages(self):
        self.assertEqual(self.shown(1234567.891, "de"), "1.234.567,891")
        self.assertEqual(self.shown(1234567.891, "fr"), "1 234 567,891")
        self.assertEqual(self.shown(1234567, "hi"), "12,34,567")

    def test_grouping(self):
        for grouping in (False, 0, FluentInt(0), "false"):
            self.assertEqual(self.shown(123456.78, useGrouping=grouping), "123456.78")
        self.assertEqual(self.shown(123456.78, useGrouping=True), "123,456.78")

    def test_digits(self):
        self.assertEqual(self.shown(1.23, minimumIntegerDigits=3), "001.23")
        self.assertEqual(self.shown(1.2, minimumFractionDigits=3), "1.200")
        self.assertEqual(self.shown(1.23456, maximumFractionDigits=5), "1.23456")
        self.assertEqual(self.shown(1.6, maximumFractionDigits=0), "2")
        # Not sure: there the fourth digit and those behind it are zeros.
        self.assertEqual(self.shown(1.23456, minimumFractionDigits=4), "1.2346")

    def test_significant_digits(self):
        self.assertEqual(self.shown(123, minimumSignificantDigits=5), "123.00")
        self.assertEqual(self.shown(12.3, minimumSignificantDigits=5), "12.300")
        self.assertEqual(self.shown(123456, maximumSignificantDigits=3), "123,000")
        self.assertEqual(self.shown(12.3456, maximumSignificantDigits=3), "12.3")
        self.assertEqual(self.shown(12, maximumSignificantDigits=5), "12")
        self.assertEqual(self.shown(0, maximumSignificantDigits=5), "0")
        self.assertEqual(self.shown(0, minimumSignificantDigits=3), "0.00")

    def test_currencies(self):
        self.assertEqual(self.shown(123456.78123, style="currency", currency="USD"), "$123,456.78")
        self.assertEqual(self.shown(-5, style="currency", currency="USD"), "-$5.00")
        self.assertEqual(self.shown(1234, style="currency", currency="JPY"), "¥1,234")
        self.assertEqual(self.shown(5, "de", style="currency", currency="EUR"), "5,00 €")
        # Not sure: where the digits of a fraction are given too.
        self.assertEqual(self.shown(5.5, style="currency", currency="USD", maximumFractionDigits=0), "$6")
        self.assertEqual(self.shown(5, style="currency", currency="USD", minimumFractionDigits=3), "$5.000")

    def test_how_currencies_are_shown(self):
        self.assertEqual(self.shown(5, "de", style="currency", currency="EUR", currencyDisplay="code"), "5,00 EUR")
        # Not sure: there it is shown by its sign, with a warning.
        self.assertEqual(self.shown(5, style="currency", currency="EUR", currencyDisplay="name"), "5.00 euros")

    def test_percent(self):
        self.assertEqual(self.shown(0.1234, style="percent"), "12%")
        self.assertEqual(self.shown(0.1234, "de", style="percent", minimumFractionDigits=1), "12,3 %")

    def test_what_is_no_option(self):
        for error, options in ((TypeError, {"colour": True}), (ValueError, {"style": "xyz"}),
                               (ValueError, {"style": "currency"}), (ValueError, {"minimumFractionDigits": 101}),
                               (ValueError, {"minimumIntegerDigits": 0}), (TypeError, {"minimumFractionDigits": "2"})):
            with self.assertRaises(error):
                fluent_number(1, **options)

    def test_options_are_merged(self):
        first = fluent_number(123456.78, useGrouping=False)
        second = fluent_number(first, style="percent")
        self.assertEqual((second.options.style, second.options.useGrouping), ("percent", False))
        self.assertEqual((first.options.style, fluent_number(1).options.useGrouping), ("decimal", True))


class Called(unittest.TestCase):
    def test_implicitly(self):
        self.assertEqual(shown("{ 123456 }"), ("123,456", []))
        self.assertEqual(shown("{ $arg }", {"arg": 123456}), ("123,456", []))
        # Not sure: digits of a message's number are not kept.
        self.assertEqual(shown("{ 1.50 }"), ("1.5", []))

    def test_number(self):
        for source, text in (("{ NUMBER(123456) }", "123,456"), ('{ NUMBER(1.234, style: "percent") }', "123%"),
                             ('{ NUMBER(123456, style: "currency", currency: "USD") }', "$123,456.00"),
                             ("{ NUMBER(123456, useGrouping: 0) }", "123456")):
            self.assertEqual(shown(source), (text, []))

    def test_number_of_an_argument(self):
        price = fluent_number(123456.78, style="currency", currency="USD")
        for given, text in ((123456, "123,456"), (123456.0, "123,456"), (Decimal("123456.0"), "123,456"), (price, "$123,456.78")):
            self.assertEqual(shown("{ NUMBER($arg) }", {"arg": given}), (text, []))
        self.assertEqual(shown("{ NUMBER($arg, useGrouping: 0) }", {"arg": price}), ("$123456.78", []))

    def test_number_of_what_is_none(self):
        text, errors = shown("{ NUMBER($arg) }")
        # Not sure: there the text is "arg".
        self.assertEqual((text, [str(error) for error in errors]), ("NUMBER()", ["Unknown external: arg"]))
        text, errors = shown('{ NUMBER("x") }{ NUMBER() }{ NUMBER(1, style: "none") }')
        self.assertEqual((text, [type(error) for error in errors]), ("NUMBER()" * 3, [TypeError, TypeError, ValueError]))

    def test_forms(self):
        source = "{ NUMBER($n, minimumFractionDigits: 1) ->\n [one] one\n *[other] other { $n }\n }"
        self.assertEqual(shown(source, {"n": 1}), ("other 1", []))
        source = '{ NUMBER($n, type: "ordinal") ->\n [two] nd\n *[other] th\n }'
        self.assertEqual([shown(source, {"n": n})[0] for n in (2, 4)], ["nd", "th"])
        source = "{ $n ->\n [one] one\n *[other] { $n }\n }"
        self.assertEqual([shown(source, {"n": n})[0] for n in (1, 1.0, 1000, 1.5)], ["one", "one", "1,000", "1.5"])

    def test_date(self):
        now = datetime(2018, 1, 12, 10, 30)
        self.assertEqual(shown("{ $date }", {"date": now}), ("Jan 12, 2018", []))
        self.assertEqual(shown("{ DATETIME($date) }", {"date": now.date()}), ("Jan 12, 2018", []))
        self.assertEqual(shown('{ DATETIME($date, dateStyle: "long") }', {"date": now}), ("January 12, 2018", []))
        zoned = fluent_date(now, timeZone="Europe/Moscow", timeStyle="short")
        text, _ = shown('{ DATETIME($date, dateStyle: "short") }', {"date": zoned})
        self.assertEqual(plain(text), "1/12/18, 1:30 PM")

    def test_date_of_what_is_none(self):
        text, errors = shown('{ DATETIME("x") }{ DATETIME($d, dateStyle: "none") }', {"d": date(2018, 1, 1)})
        self.assertEqual((text, [type(error) for error in errors]), ("DATETIME()" * 2, [TypeError, ValueError]))

    def test_marks(self):
        made = FluentBundle(["en-US"])
        made.add_resource("m = { $n }!\n")
        self.assertEqual(made.format_pattern(made.get_message("m").value, {"n": 1000}), ("\u20681,000\u2069!", []))


class Dates(unittest.TestCase):
    DAY = date(2018, 2, 1)
    TIME = datetime(2018, 2, 1, 14, 15, 16, 123456, tzinfo=timezone.utc)

    def shown(self, value, locale="en_US", **options):
        return plain(fluent_date(value, **options).format(Locale.parse(locale)))

    def test_types(self):
        for value in (self.DAY, self.TIME):
            made = fluent_date(value)
            self.assertIsInstance(made, FluentDateType)
            self.assertIsInstance(made, type(value))
            self.assertEqual(made, value)
        # It has options all the same.
        self.assertEqual(plain((fluent_date(self.DAY) + timedelta(1)).format(Locale("en"))), "Feb 2, 2018")

    def test_styles_of_dates(self):
        for value in (self.DAY, self.TIME):
            for style, text in (("full", "Thursday, February 1, 2018"), ("long", "February 1, 2018"),
                                ("medium", "Feb 1, 2018"), ("short", "2/1/18"), (None, "Feb 1, 2018")):
                self.assertEqual(self.shown(value, dateStyle=style), text)
        self.assertEqual(self.shown(self.DAY, "de", dateStyle="long"), "1. Februar 2018")

    def test_styles_of_times(self):
        self.assertEqual(self.shown(self.TIME, timeStyle="short"), "2:15 PM")
        self.assertRegex(self.shown(self.TIME, timeStyle="full"), "^2:15:16 PM .+$")
        self.assertEqual(self.shown(self.TIME, dateStyle="short", timeStyle="short"), "2/1/18, 2:15 PM")

    def test_zones(self):
        in_utc = datetime(2018, 7, 1, 23, 30, tzinfo=timezone.utc)
        styles = {"dateStyle": "short", "timeStyle": "short"}
        for value in (in_utc, in_utc.replace(tzinfo=None), in_utc.astimezone(timezone(timedelta(hours=-5)))):
            self.assertEqual(self.shown(value, timeZone="Europe/London", **styles), "7/2/18, 12:30 AM")
        self.assertEqual(self.shown(in_utc.replace(tzinfo=None), **styles), "7/1/18, 11:30 PM")
        self.assertEqual(self.shown(in_utc.astimezone(timezone(timedelta(hours=1))), **styles), "7/2/18, 12:30 AM")
        full = self.shown(in_utc, timeZone="Europe/London", dateStyle="full", timeStyle="full")
        self.assertEqual(full.replace(" at ", ", "), "Monday, July 2, 2018, 12:30:00 AM British Summer Time")

    def test_what_is_no_option(self):
        for error, value, options in ((ValueError, self.DAY, {"dateStyle": "nothing"}), (TypeError, self.DAY, {"timeStyle": "short"}),
                                      (ValueError, self.TIME, {"timeStyle": "nothing"}), (TypeError, self.DAY, {"no": 1})):
            with self.assertRaises(error):
                fluent_date(value, **options)

    def test_options_that_are_not_shown(self):
        with warnings.catch_warnings(record=True) as told:
            warnings.simplefilter("always")
            self.assertEqual(self.shown(self.DAY, weekday="narrow", hour12=True), "Feb 1, 2018")
        self.assertEqual([str(each.message) for each in told], [
            "the option weekday of a date is not shown", "the option hour12 of a date is not shown"])


class Locales(unittest.TestCase):
    def test_the_first_that_is_known(self):
        for locales, text in ((["xx", "de", "en"], "1.000"), (["de-DE", "en"], "1.000"), (["pt_BR"], "1.000"), (["xx"], "1,000"),
                              ([], "1,000"), (["", "de"], "1.000"), (["e\0n", "-", "de"], "1.000")):
            self.assertEqual(shown("{ $n }", {"n": 1000}, locales), (text, []))

    def test_each_language_of_a_localization(self):
        class Loader:
            def resources(self, locale, resource_ids):
                yield [FluentResource({"de": "m = { $n }\n", "en": "m = { $n }\nonly = { $n }\n"}[locale])]

        made = FluentLocalization(["de", "en"], ["main.ftl"], Loader())
        self.assertEqual([made.format_value(name, {"n": 1000}) for name in ("m", "only")], ["1.000", "1,000"])


if __name__ == "__main__":
    unittest.main()
