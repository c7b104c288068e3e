"""Functions, formatters and transforms of a program, in Python."""
import threading
import unittest
from datetime import date
from decimal import Decimal
from unittest import mock

from fluent_rattle import FluentBundle, FluentChain, FluentNone, FluentType, fluent_number
from fluent_rattle.types import FluentDate, FluentDecimal, FluentFloat, FluentInt, FluentNumber, NumberFormatOptions


def bundle(source, functions=None, **settings):
    settings.setdefault("use_isolating", False)
    settings.setdefault("formatter", None)
    made = FluentBundle(["en"], functions, **settings)
    made.add_resource(source)
    return made


def shown(made, args=None, message_id="m"):
    return made.format_pattern(made.get_message(message_id).value, args)


class Money(FluentType):
    """A type of a program."""

    def __init__(self, amount):
        self.amount = amount

    def format(self, locale):
        return f"{self.amount} coins"


class Called(unittest.TestCase):
    def calls(self, source, args=None, answer="ok"):
        """How F was called by the message m, and what came of it."""
        calls = []

        def function(*positional, **named):
            calls.append((positional, named))
            return answer(*positional, **named) if callable(answer) else answer

        return calls, shown(bundle(source, {"F": function}), args)

    def test_texts_and_names(self):
        calls, answer = self.calls('m = { F("a", "", b: "ü", a-b: "c") }\n')
        self.assertEqual(calls, [(("a", ""), {"b": "ü", "a-b": "c"})])
        self.assertEqual(answer, ("ok", []))

    def test_numbers_are_those_that_were_given(self):
        for number, kind in ((5, FluentInt), (1.5, FluentFloat), (2.0, FluentFloat), (Decimal("1.50"), FluentDecimal),
                             (-0.25, FluentFloat), (10**30, FluentInt), (1e300, FluentFloat), (True, FluentInt)):
            calls, _ = self.calls("m = { F($n) }\n", {"n": number})
            given = calls[0][0][0]
            self.assertEqual((given, type(given)), (number, kind))

    def test_numbers_of_messages(self):
        calls, _ = self.calls("m = { F(5, -2, 1.50) }\n")
        given = calls[0][0]
        self.assertEqual(given, (5, -2, 1.5))
        self.assertEqual([type(each) for each in given], [FluentInt, FluentInt, FluentFloat])
        self.assertEqual([each.options.minimumFractionDigits for each in given], [None] * 3)

    def test_options_come_along(self):
        price = fluent_number(5, style="currency", currency="EUR", useGrouping=False, minimumFractionDigits=3)
        calls, _ = self.calls("m = { F($n) }\n", {"n": price})
        self.assertIs(calls[0][0][0], price)
        calls, _ = self.calls('m = { F(NUMBER($n, style: "percent", maximumSignificantDigits: 3)) }\n', {"n": 2})
        options = calls[0][0][0].options
        self.assertEqual((options.style, options.maximumSignificantDigits, options.useGrouping), ("percent", 3, True))

    def test_any_currency(self):
        for currency in ("EUR", "", ";", "=", "a;b=c", ";currency=", "currency=;currency=x", "\n", "é"):
            price = fluent_number(Decimal("1.50"), style="currency", currency=currency)
            calls, _ = self.calls("m = { F($n) }\n", {"n": price})
            self.assertIs(calls[0][0][0], price)
            calls, _ = self.calls("m = { F(F($n), 1) }\n", {"n": price}, answer=lambda n, *_: n)
            self.assertIs(calls[1][0][0], price)

    def test_the_usual_options_may_be_others(self):
        with mock.patch.object(FluentNumber, "default_number_format_options", NumberFormatOptions(minimumFractionDigits=1)):
            calls, _ = self.calls("m = { F($n) }\n", {"n": 5})
            self.assertEqual(calls[0][0][0].options.minimumFractionDigits, 1)
            self.assertEqual(shown(bundle("m = { $n }\n"), {"n": 5}), ("5.0", []))

    def test_dates_and_types_of_the_program(self):
        day, money = date(2020, 2, 29), Money(3)
        calls, _ = self.calls("m = { F($d, $m, $d) }\n", {"d": day, "m": money})
        first, second, third = calls[0][0]
        self.assertEqual((first, type(first)), (day, FluentDate))
        self.assertIs(second, money)
        self.assertIs(third, first)

    def test_messages_and_terms_are_texts(self):
        calls, _ = self.calls('m = { F(a, a.b, -t, -t(n: 2)) }\na = A\n .b = B\n-t = T{ $n ->\n [2] 2\n *[other] x\n }\n')
        self.assertEqual(calls, [(("A", "B", "Tx", "T2"), {})])

    def test_what_is_not_there(self):
        calls, (_, errors) = self.calls("m = { F($x, gone) }\n")
        self.assertEqual(calls[0][0][0], FluentNone())
        self.assertEqual([str(error) for error in errors][:1], ["Unknown external: x"])

    def test_equal_calls_are_asked_once(self):
        calls, (text, _) = self.calls('m = { F("a") }{ F("a") }{ F("b") }\n', answer=lambda x: x * 2)
        self.assertEqual((text, len(calls)), ("aaaabb", 2))

    def test_each_text_asks_anew(self):
        turns = iter("abc")
        made = bundle("m = { F() }\n", {"F": lambda: next(turns)})
        self.assertEqual([shown(made)[0] for _ in range(3)], ["a", "b", "c"])

    def test_nested(self):
        made = bundle('m = { F(F("a", F("b"))) }\n', {"F": lambda *texts: f"({''.join(texts)})"})
        self.assertEqual(shown(made), ("((a(b)))", []))

    def test_many(self):
        names = [f"F{i}" for i in range(60)]
        made = bundle("m = " + "".join(f"{{ {name}({i}) }}" for i, name in enumerate(names)),
                      {name: lambda n, name=name: f"{name}:{n} " for name in names})
        self.assertEqual(shown(made), ("".join(f"F{i}:{i} " for i in range(60)), []))

    def test_long_questions_and_answers(self):
        for length in (230, 256, 70_000):
            calls, (text, _) = self.calls("m = { F($x) }\n", {"x": "x" * length}, answer=lambda x: x + "y" * length)
            self.assertEqual((len(calls), text), (1, "x" * length + "y" * length))


class Answers(unittest.TestCase):
    def answer(self, given, source="m = { F() }\n", **settings):
        return shown(bundle(source, {"F": lambda: given}, **settings))

    def test_each_kind(self):
        for given, text in (("a\0b\n", "a\0b\n"), (5, "5"), (1.5, "1.5"), (2.0, "2"), (Decimal("1.50"), "1.50"),
                            (date(2020, 2, 29), "2020-02-29"), (Money(3), "3 coins"), (FluentNone("name"), "name"),
                            (10**30, "1" + "0" * 30)):
            self.assertEqual(self.answer(given), (text, []))

    def test_digits(self):
        self.assertEqual(self.answer(fluent_number(5, minimumFractionDigits=2)), ("5.00", []))

    def test_forms(self):
        source = "m = { F() ->\n [one] one\n [a] text\n *[other] other\n }\n"
        for given, text in ((1, "one"), (2, "other"), ("a", "text"), ("one", "one"), (Money(1), "other"), (None, "other"),
                            (fluent_number(1, minimumFractionDigits=1), "other"), (FluentNone("a"), "other")):
            self.assertEqual(self.answer(given, source), (text, []))

    def test_ordinal_forms(self):
        source = "m = { F() ->\n [two] nd\n *[other] th\n }\n"
        self.assertEqual(self.answer(fluent_number(2, type="ordinal"), source), ("nd", []))

    def test_an_error(self):
        self.assertEqual(self.answer(FluentNone()), ("F()", []))

    def test_what_is_no_value(self):
        for given in (b"x", ["x"], object()):
            text, errors = self.answer(given)
            self.assertEqual((text, [type(error) for error in errors]), ("F()", [TypeError]))
            self.assertIn("what F gives is a str, a number, a date or a FluentType", str(errors[0]))

    def test_what_has_no_utf8(self):
        text, errors = self.answer("\ud800")
        self.assertEqual((text, [type(error) for error in errors]), ("F()", [ValueError]))


class Failures(unittest.TestCase):
    def test_what_is_raised_stands_beside_the_text(self):
        def wrong(x):
            return 1 / 0

        made = bundle("m = a { F(1) } { $gone }\n", {"F": wrong})
        text, errors = shown(made)
        self.assertEqual(text, "a F() {$gone}")
        self.assertEqual([type(error).__name__ for error in errors], ["FluentReferenceError", "ZeroDivisionError"])
        self.assertEqual(made.format_value("m")[1], [
            "Resolver error: Unknown variable: $gone", "F() failed: ZeroDivisionError: division by zero"])

    def test_what_is_no_exception_is_raised(self):
        def stop():
            raise KeyboardInterrupt

        with self.assertRaises(KeyboardInterrupt):
            shown(bundle("m = { F() }\n", {"F": stop}))

    def test_no_functions(self):
        for functions in (False, True, 5, ["F"], {"F": 5}):
            with self.assertRaisesRegex(TypeError, "functions is a mapping of names to functions"):
                FluentBundle(["en"], functions)

    def test_no_switch(self):
        with self.assertRaisesRegex(TypeError, "use_isolating is a bool"):
            FluentBundle(["en"], None, None)

    def test_an_unknown_function(self):
        text, errors = shown(bundle("m = { G() }\n", {"F": str}))
        self.assertEqual((text, [str(error) for error in errors]), ("{G()}", ["Unknown function: G"]))


class Builtins(unittest.TestCase):
    def test_they_may_be_overridden(self):
        source = 'm = { NUMBER(5) } { DATETIME("x") }\n'
        made = bundle(source, {"NUMBER": lambda n: f"<{n}>", "DATETIME": lambda d: d.upper()})
        self.assertEqual(shown(made), ("<5> X", []))

    def test_their_ids_are_taken(self):
        told = FluentBundle(["en"], {"F": str}).add_resource("F = f\nDATETIME = d\nNUMBER = n\n")
        self.assertEqual([line.split('"')[1] for line in told], ["F", "DATETIME", "NUMBER"])


class Shown(unittest.TestCase):
    def test_a_formatter(self):
        def formatter(value):
            return f"<{value}>" if isinstance(value, FluentNumber) else None

        made = bundle("m = { $n } { $t } { 5 } { $d } { $c }\n", formatter=formatter)
        args = {"n": 7, "t": "text", "d": date(2020, 1, 2), "c": Money(1)}
        self.assertEqual(shown(made, args), ("<7> text <5> 2020-01-02 1 coins", []))

    def test_texts_too(self):
        made = bundle('m = { $t }{ F() }\n', {"F": lambda: "f"}, formatter=lambda value: f"[{value}]")
        self.assertEqual(shown(made, {"t": "a"}), ("[a][f]", []))

    def test_not_what_chooses(self):
        made = bundle("m = { $n ->\n [1] one\n *[other] other\n }\n", formatter=lambda value: self.fail(value))
        self.assertEqual(shown(made, {"n": 1}), ("one", []))

    def test_what_fails(self):
        def formatter(value):
            raise LookupError(value)

        text, errors = shown(bundle("m = { $n }{ $c }\n", formatter=formatter), {"n": 7, "c": Money(1)})
        self.assertEqual((text, [type(error) for error in errors]), ("7???", [LookupError] * 2))

    def test_types_that_fail(self):
        class Wrong(FluentType):
            def __init__(self, text):
                self.text = text

            def format(self, locale):
                return self.text if self.text else {}[locale]

        for formatter in (None, lambda value: None):
            for given, error in (("", KeyError), ("\ud800", ValueError), (b"x", TypeError)):
                text, errors = shown(bundle("m = <{ $c }>\n", formatter=formatter), {"c": Wrong(given)})
                self.assertEqual((text, [type(each) for each in errors]), ("<???>", [error]))

    def test_no_formatter(self):
        for formatter in ("Babel", ""):
            with self.assertRaisesRegex(ValueError, "'babel', a function or None"):
                FluentBundle(["en"], formatter=formatter)
        for settings in ({"formatter": 5}, {"transform": 5}, {"transform": "babel"}):
            with self.assertRaisesRegex(TypeError, "is a function"):
                FluentBundle(["en"], **settings)


class Transformed(unittest.TestCase):
    def test_texts_of_messages(self):
        made = bundle("m = Hello, { $name } { -t }!\n-t = term\n .a = b\n", transform=str.upper)
        for _ in range(2):
            self.assertEqual(shown(made, {"name": "Ada"}), ("HELLO, Ada TERM!", []))

    def test_each_once(self):
        asked = []
        made = bundle("m = a { $x ->\n [1] b\n *[other] c\n } d\n", transform=lambda text: asked.append(text) or text)
        for n in (1, 2, 1, 2):
            shown(made, {"x": n})
        self.assertEqual(asked, ["a ", "b", " d", "c"])
        made.add_resource("m = e\n", allow_overrides=True)
        shown(made)
        self.assertEqual(asked[4:], ["e"])

    def test_what_fails(self):
        def transform(text):
            raise OSError("no")

        text, errors = shown(bundle("m = text\n", transform=transform))
        self.assertEqual((text, [str(error) for error in errors]), ("text", ["no"]))


class Beside(unittest.TestCase):
    def test_a_chain(self):
        chain = FluentChain(["pl", "en"], {"F": lambda n: n * 2}, use_isolating=False, formatter=None)
        polish, english = chain.bundles
        english.add_resource("m = { F($n) }\n")
        self.assertEqual(chain.format_value("m", {"n": 4}), ("8", []))

    def test_rules(self):
        made = FluentBundle.from_rules("one: n = 8; other:", functions={"F": lambda n: n * 2}, use_isolating=False)
        made.add_resource("m = { F($n) ->\n [one] one\n *[other] other\n }\n")
        self.assertEqual(made.format_value("m", {"n": 4}), ("one", []))

    def test_a_function_that_formats(self):
        made = bundle("m = { F($n) }\ninner = <{ $n }>\n", {"F": lambda n: made.format_value("inner", {"n": n})[0]})
        self.assertEqual(shown(made, {"n": 4}), ("<4>", []))

    def test_threads_wait_for_no_function(self):
        entered, leave = threading.Event(), threading.Event()

        def slow():
            entered.set()
            return "slow" if leave.wait(10) else "late"

        made, texts = bundle("m = { F() }\nother = other\n", {"F": slow}), []
        thread = threading.Thread(target=lambda: texts.append(shown(made)[0]))
        thread.start()
        self.assertTrue(entered.wait(10))
        self.assertEqual(shown(made, message_id="other"), ("other", []))
        leave.set()
        thread.join()
        self.assertEqual(texts, ["slow"])

    def test_a_bundle_that_a_function_closes(self):
        made = bundle("m = { F() }\n", {"F": lambda: made.close() or "x"})
        with self.assertRaisesRegex(ValueError, "the bundle is closed"):
            shown(made)


if __name__ == "__main__":
    unittest.main()
