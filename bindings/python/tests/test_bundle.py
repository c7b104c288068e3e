"""Each call of the package."""
import copy
import gc
import os
import shutil
import subprocess
import sys
import tempfile
import unittest
from collections import OrderedDict
from decimal import Decimal
from unittest import mock

from fluent_rattle import FluentBundle, _library

from . import LIBRARY, TOP

SOURCE = """\
hello = Hello, { $name }!
shown = { $n }
mails = { $n ->
    [0] nothing
    [one] one mail
   *[other] { $n } mails
 }
 .title = Mails of { $name }
only =
 .title = T
broken = { gone }{ $x }{ broken }
-term = a term
terms = { -term }
?? this is Junk
"""
ASKING = f"""\
-t = {{ $of_a_term }}
all = {{ $x }}{{ -t($m, u: 1) }}{{ F($a) }}{{ only.b }}{{ $n ->
    [one] {{ $x }}
   *[other] {{ $n }}
 }}
only =
 .b = {{ $b }}
 .none = None
loop = {{ $l }}{{ loop }}{{ gone }}
far = {{ ${"x" * 300} }}
"""
LONE = "a\ud800"


def bundle(languages=("en",), isolating=False, source=SOURCE):
    made = FluentBundle(languages, use_isolating=isolating, formatter=None)
    made.add_resource(source)
    return made


class Texts(unittest.TestCase):
    def test_an_argument(self):
        self.assertEqual(bundle().format_value("hello", {"name": "Ada"}), ("Hello, Ada!", []))
        self.assertEqual(bundle().format_value("hello", OrderedDict(name="")), ("Hello, !", []))

    def test_arguments_that_no_message_asks_for(self):
        self.assertEqual(bundle().format_value("terms", {"name": "Ada", "": "x", "ü": 1}), ("a term", []))

    def test_isolation_is_on_at_first(self):
        made = FluentBundle(["en"])
        made.add_resource(SOURCE)
        self.assertEqual(made.format_value("hello", {"name": "Ada"}), ("Hello, \u2068Ada\u2069!", []))

    def test_errors_are_lines(self):
        text, errors = bundle().format_value("broken")
        self.assertEqual(text, "{gone}{$x}{broken}")
        self.assertEqual(errors, ["Resolver error: Unknown message: gone", "Resolver error: Unknown variable: $x",
                                  "Resolver error: Cyclical dependency detected"])

    def test_any_character(self):
        for text in ("a\0b", "\0", "\r\n", "é", "\u2028", "\U0001f600", "\U0010ffff" * 100, "x" * 100_000):
            self.assertEqual(bundle().format_value("shown", {"n": text}), (text, []))
            self.assertEqual(bundle(source=f"a = <{{ $x }}>{text}>").has_message("a"), True)

    def test_texts_are_no_numbers(self):
        self.assertEqual(bundle().format_value("mails", {"n": "1"}), ("1 mails", []))

    def test_rooms_grow(self):
        for length in (255, 256, 257, 70_000):
            self.assertEqual(bundle().format_value("shown", {"n": "x" * length}), ("x" * length, []))
        many = "m = " + "{ $a }" * 99
        text, errors = bundle(source=many).format_value("m")
        self.assertEqual((text, errors), ("{$a}" * 99, ["Resolver error: Unknown variable: $a"] * 99))


class Numbers(unittest.TestCase):
    def shown(self, number):
        text, errors = bundle().format_value("shown", {"n": number})
        self.assertEqual(errors, [])
        return text

    def test_digits_stay(self):
        self.assertEqual(self.shown(0), "0")
        self.assertEqual(self.shown(-12), "-12")
        self.assertEqual(self.shown(2**64 - 1), "18446744073709551615")
        self.assertEqual(self.shown(Decimal("1.50")), "1.50")
        self.assertEqual(self.shown(Decimal("-0.000000000000000001")), "-0.000000000000000001")
        self.assertEqual(self.shown(0.1), "0.1")
        self.assertEqual(self.shown(True), "1")

    def test_floats_without_a_fraction(self):
        for number, text in ((1.0, "1"), (-0.0, "0"), (1e16, "10000000000000000"), (2.0**63, "9223372036854775808")):
            self.assertEqual(self.shown(number), text)

    def test_exponents_are_written_out(self):
        self.assertEqual(self.shown(Decimal("1E+5")), "100000")
        self.assertEqual(self.shown(Decimal("0E-3")), "0.000")
        self.assertEqual(self.shown(1e-7), "0.0000001")

    def test_what_is_out_of_range_is_shown_as_typed(self):
        self.assertEqual(self.shown(2**64), "18446744073709551616")
        self.assertEqual(self.shown(Decimal("1E+999999999")), "1E+999999999")
        self.assertEqual(self.shown(1e300), "1e+300")
        self.assertEqual(self.shown(5e-324), "5e-324")

    def test_forms(self):
        for number, text in ((0, "nothing"), (1, "one mail"), (2, "2 mails"), (Decimal(1), "one mail"),
                             (Decimal("1.0"), "1.0 mails"), (1.0, "one mail"), (True, "one mail"),
                             (Decimal("0.00"), "0.00 mails")):
            self.assertEqual(bundle().format_value("mails", {"n": number}), (text, []))

    def test_forms_of_a_language(self):
        polish = bundle(["pl"], source="m = { $n ->\n [one] a\n [few] b\n *[many] c\n }\n")
        self.assertEqual([polish.format_value("m", {"n": n})[0] for n in (1, 2, 5, 22, 112)], list("abcbc"))

    def test_not_finite(self):
        decimals = [Decimal(text) for text in ("NaN", "sNaN", "Infinity", "-Infinity")]
        for number in [float("inf"), float("-inf"), float("nan"), *decimals]:
            self.assertEqual(self.shown(number), str(number))
            self.assertEqual(bundle().format_value("mails", {"n": number})[0], f"{number} mails")

    def test_other_types(self):
        for other in (None, b"x", 1j, ["x"], object()):
            with self.assertRaisesRegex(TypeError, "the argument 'n' is a str, a number, a date or a FluentType"):
                bundle().format_value("shown", {"n": other})


class Lookups(unittest.TestCase):
    def test_messages(self):
        made = bundle()
        self.assertEqual([made.has_message(i) for i in ("hello", "only", "gone", "-term", "term", "")],
                         [True, True, False, False, False, False])
        self.assertIs(made.has_message("hello"), True)

    def test_attributes(self):
        self.assertEqual(bundle().format_attribute("mails", "title", {"name": "Ada"}), ("Mails of Ada", []))
        self.assertEqual(bundle().format_attribute("only", "title"), ("T", []))

    def test_what_is_not_there(self):
        for missing in ("gone", "only", "-term", "", "hello "):
            with self.assertRaisesRegex(LookupError, "no message"):
                bundle().format_value(missing)
        for message, name in (("hello", "title"), ("gone", "title"), ("mails", "Title"), ("mails", "")):
            with self.assertRaisesRegex(LookupError, "no attribute"):
                bundle().format_attribute(message, name)

    def test_the_first_message_stays(self):
        made = bundle()
        made.add_resource("hello = again\nlater = { hello }\n")
        self.assertEqual(made.format_value("later", {"name": "Ada"}), ("Hello, Ada!", []))
        made.add_resource("")
        self.assertTrue(made.has_message("later"))

    def test_lone_surrogates(self):
        made = bundle()
        for call in (lambda: FluentBundle([LONE]), lambda: made.add_resource(LONE), lambda: made.has_message(LONE),
                     lambda: made.variables(LONE), lambda: made.variables("hello", LONE), lambda: made.format_value(LONE), lambda: made.format_attribute("hello", LONE),
                     lambda: made.format_value("hello", {LONE: 1}), lambda: made.format_value("hello", {"name": LONE})):
            with self.assertRaisesRegex(ValueError, "lone surrogate at [01]") as raised:
                call()
            self.assertIs(type(raised.exception), ValueError)

    def test_other_types(self):
        made = bundle()
        for call in (lambda: FluentBundle([1]), lambda: FluentBundle(b"en"), lambda: made.add_resource(b"a = b"),
                     lambda: made.has_message(None), lambda: made.variables("hello", 1), lambda: made.format_value(b"hello"),
                     lambda: made.format_attribute("hello", None), lambda: made.format_value("hello", {1: 1})):
            with self.assertRaises(TypeError):
                call()

    def test_values_and_attributes(self):
        made = bundle()
        self.assertEqual([made.has_value(i) for i in ("hello", "only", "gone", "-term", "")],
                         [True, False, False, False, False])
        found = [made.has_attribute(*pair) for pair in (("mails", "title"), ("only", "title"), ("only", ""), ("a", "b"))]
        self.assertEqual(found, [True, True, False, False])
        self.assertIs(made.has_value("hello"), True)

    def test_variables(self):
        made = bundle(source=ASKING)
        self.assertEqual(made.variables("all"), ["a", "b", "m", "n", "x"])
        self.assertEqual([made.variables("only", "b"), made.variables("only", attribute="none")], [["b"], []])
        self.assertEqual([made.variables("loop"), made.variables("far")], [["l"], ["x" * 300]])
        for message in ("only", "gone", "t", "-t", ""):
            with self.assertRaisesRegex(LookupError, "no message"):
                made.variables(message)
        for message, name in (("only", "c"), ("gone", "b"), ("t", "b"), ("all", "")):
            with self.assertRaisesRegex(LookupError, "no attribute"):
                made.variables(message, name)
        made.add_resource("loop = { $other }", allow_overrides=True)
        self.assertEqual(made.variables("loop"), ["other"])

    def test_ids(self):
        made = FluentBundle("en")
        self.assertEqual(made.message_ids(), [])
        made.add_resource(SOURCE)
        made.add_resource("hello = again\nlater = l\n-other = t\n")
        self.assertEqual(made.message_ids(), ["broken", "hello", "later", "mails", "only", "shown", "terms"])
        made.add_resource("".join(f"message-{i} = m\n" for i in range(1_000)))
        self.assertEqual(made.message_ids()[-4], "message-999")
        self.assertEqual(len(made.message_ids()), 1_007)


class Reports(unittest.TestCase):
    def test_nothing(self):
        self.assertEqual(FluentBundle("en").add_resource("a = A\n"), [])
        self.assertEqual(FluentBundle("en").add_resource(""), [])

    def test_what_is_not_read_or_left(self):
        made = FluentBundle("en")
        self.assertEqual(made.add_resource("a = A\n?? x\nb = {\na = again\n"), [
            "2: unreadable entry at bytes 6..11", "3: unreadable entry at bytes 11..17",
            '4: Attempt to override an existing message: "a".'])
        self.assertEqual(made.add_resource("-a = term\n"), ['1: Attempt to override an existing term: "a".'])
        self.assertEqual(made.add_resource("c = C\n"), [])

    def test_many(self):
        lines = FluentBundle("en").add_resource("a = A\n" * 1_001)
        self.assertEqual(len(lines), 1_000)
        self.assertEqual(lines[-1], '1001: Attempt to override an existing message: "a".')


class Languages(unittest.TestCase):
    def test_the_first_that_has_rules(self):
        source = "m = { $n ->\n [few] few\n *[other] other\n }\n"
        polish = ["xx", "pl"], "pl", ("pl", "en"), iter(["pl-PL"])
        for languages, text in [(languages, "few") for languages in polish] + [(["en", "pl"], "other")]:
            self.assertEqual(bundle(languages, source=source).format_value("m", {"n": 2}), (text, []))

    def test_none_has_rules(self):
        source = "m = { $n ->\n [one] one\n *[other] { $n } other\n }\n"
        for languages in ([], ["xx"], "", ["", "xx"], "e\0n", "x" * 1_000):
            self.assertEqual(bundle(languages, source=source).format_value("m", {"n": 1}), ("1 other", []))

    def test_locales_are_kept(self):
        self.assertEqual(FluentBundle(["xx", "en"]).locales, ["xx", "en"])
        self.assertEqual(FluentBundle("en").locales, ["en"])


class Rules(unittest.TestCase):
    SOURCE = "m = { $n ->\n [one] one\n [few] few\n *[other] other\n }\n" \
             "o = { NUMBER($n, type: \"ordinal\") ->\n [two] nd\n *[other] th\n }\n"

    def test_rules(self):
        made = FluentBundle.from_rules("one: n = 1; few: n = 2..4; other:", "two: n = 2; other:")
        made.add_resource(self.SOURCE)
        self.assertEqual([made.format_value("m", {"n": n})[0] for n in (1, 3, 5)], ["one", "few", "other"])
        self.assertEqual([made.format_value("o", {"n": n})[0] for n in (1, 2)], ["th", "nd"])
        self.assertIsInstance(made, FluentBundle)

    def test_no_rules(self):
        made = FluentBundle.from_rules("", use_isolating=False, placeable_limit=2)
        made.add_resource(self.SOURCE)
        self.assertEqual(made.format_value("m", {"n": 1}), ("other", []))

    def test_bad_rules(self):
        for cardinal, ordinal in (("one", ""), ("one: n = ", ""), ("", "one: n = 1 and"), ("lots: n = 1", "")):
            with self.assertRaisesRegex(ValueError, "can't be read"):
                FluentBundle.from_rules(cardinal, ordinal)
        for rules in ((LONE,), ("", LONE)):
            with self.assertRaisesRegex(ValueError, "lone surrogate"):
                FluentBundle.from_rules(*rules)


class Limits(unittest.TestCase):
    def test_a_limit(self):
        source = "long = { 1 }{ 2 }{ 3 }\n"
        for limit, text in ((1, "1"), (2, "12"), (3, "123"), (10_000, "123")):
            made = FluentBundle("en", use_isolating=False, placeable_limit=limit)
            made.add_resource(source)
            errors = [] if text == "123" else ["Resolver error: Too many placeables"]
            self.assertEqual(made.format_value("long"), (text, errors))

    def test_no_such_limit(self):
        for limit in (0, -1, 10_001, 2**64, 2**64 + 1):
            with self.assertRaisesRegex(ValueError, "from 1 to 10000"):
                FluentBundle("en", placeable_limit=limit)
        for limit in ("1", 1.0):
            with self.assertRaises(TypeError):
                FluentBundle("en", placeable_limit=limit)


class Ends(unittest.TestCase):
    def test_closed(self):
        made = bundle()
        made.close()
        made.close()
        for call in (lambda: made.add_resource(SOURCE), lambda: made.has_message("hello"),
                     lambda: made.format_value("hello"), lambda: made.format_attribute("mails", "title"),
                     lambda: made.has_value("hello"), lambda: made.message_ids()):
            with self.assertRaisesRegex(ValueError, "the bundle is closed"):
                call()

    def test_context(self):
        with bundle() as made:
            self.assertEqual(made.format_value("terms"), ("a term", []))
        self.assertFalse(made._calls.handles[0].is_open)

    def test_garbage(self):
        made = bundle()
        handle = made._calls.handles[0]
        made.itself = made
        self.assertTrue(handle.is_open)
        del made
        gc.collect()
        self.assertFalse(handle.is_open)

    def test_no_copies(self):
        for call in (copy.copy, copy.deepcopy):
            with self.assertRaisesRegex(TypeError, "neither copied"):
                call(bundle())

    def test_the_end_of_the_program(self):
        code = "from fluent_rattle import FluentBundle\nb = FluentBundle('en')\nb.add_resource('a = A')\n" \
               "print(b.format_value('a'))"
        ran = subprocess.run([sys.executable, "-X", "dev", "-c", code], cwd=TOP / "bindings/python",
                             capture_output=True)
        self.assertEqual((ran.returncode, ran.stdout, ran.stderr), (0, b"('A', [])\n", b""))


class Finding(unittest.TestCase):
    def test_an_argument(self):
        with mock.patch.dict(os.environ, FLUENT_LIBRARY="/nowhere"):
            FluentBundle("en", library=LIBRARY).close()
            with self.assertRaises(OSError):
                FluentBundle("en")

    def test_the_package(self):
        with mock.patch.dict(os.environ), tempfile.TemporaryDirectory() as top:
            del os.environ["FLUENT_LIBRARY"]
            package = os.path.join(top, "fluent_rattle")
            os.mkdir(package)
            with mock.patch.object(_library, "__file__", os.path.join(package, "_library.py")):
                with self.assertRaisesRegex(OSError, "no libfluent.so"):
                    FluentBundle("en")
                for place in (os.path.join(top, "libfluent.so"), os.path.join(package, "libfluent.so")):
                    shutil.copy(LIBRARY, place)
                    self.assertEqual(_library.path_of(), place)
                    FluentBundle("en").close()


if __name__ == "__main__":
    unittest.main()
