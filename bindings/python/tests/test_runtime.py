"""What fluent.runtime's documentation shows, by its names. "Not sure" marks what was written down from memory and may be
otherwise there, and "Unlike" what is otherwise here."""
import os
import tempfile
import time
import unittest
from concurrent.futures import ThreadPoolExecutor
from unittest import mock

import fluent_rattle
from fluent_rattle import FluentBundle, FluentChain, FluentLocalization, FluentResource, FluentResourceLoader, _library
from fluent_rattle.builtins import BUILTINS, DATETIME, NUMBER
from fluent_rattle.errors import FluentCyclicReferenceError, FluentFormatError, FluentReferenceError
from fluent_rattle.types import FluentNone, FluentType, fluent_date, fluent_number

from . import LIBRARY, TOP


def bundle(source, isolating=False, locales=("en-US",)):
    made = FluentBundle(locales, use_isolating=isolating)
    made.add_resource(FluentResource(source))
    return made


def shown(made, message_id, args=None):
    return made.format_pattern(made.get_message(message_id).value, args)


class Documented(unittest.TestCase):
    SOURCE = """
welcome = Welcome to this great app!
greet-by-name = Hello, { $name }!
"""

    def test_a_message(self):
        made = bundle(self.SOURCE, True)
        message = made.get_message("welcome")
        text, errors = made.format_pattern(message.value)
        self.assertEqual(text, "Welcome to this great app!")
        self.assertEqual(errors, [])
        self.assertEqual(shown(made, "greet-by-name", {"name": "Jane"}), ("Hello, \u2068Jane\u2069!", []))

    def test_a_missing_argument(self):
        # Unlike: there the fallback has neither braces nor a dollar sign.
        self.assertEqual(shown(bundle(self.SOURCE), "greet-by-name"),
                         ("Hello, {$name}!", [FluentReferenceError("Unknown external: name")]))

    def test_arguments_of_other_types(self):
        # Not sure: the error's text.
        for value in (None, ["x"], b"x"):
            text, errors = shown(bundle(self.SOURCE), "greet-by-name", {"name": value, "unused": object()})
            self.assertEqual((text, [str(error) for error in errors]),
                             ("Hello, {$name}!", [f"Unsupported external type: name, {type(value)}"]))
            self.assertIsInstance(errors[0], TypeError)

    def test_arguments_without_utf8(self):
        # Unlike: there a lone surrogate is a character like any other.
        text, errors = shown(bundle(self.SOURCE), "greet-by-name", {"name": "a\ud800"})
        self.assertEqual((text, [(type(each), str(each)) for each in errors]),
                         ("Hello, {$name}!", [(ValueError, "the argument 'name' has a lone surrogate at 1")]))

    def test_whether_it_is_there(self):
        made = bundle(self.SOURCE)
        self.assertTrue(made.has_message("welcome"))
        self.assertFalse(made.has_message("not-a-message"))
        with self.assertRaises(KeyError):
            made.get_message("not-a-message")

    def test_attributes(self):
        made = bundle("foo = Foo\n    .attr = Foo Attribute { $x }\nbare =\n    .b = B\n    .a = A\n")
        attributes = made.get_message("foo").attributes
        self.assertEqual(made.format_pattern(attributes["attr"], {"x": 1}), ("Foo Attribute 1", []))
        bare = made.get_message("bare")
        self.assertIsNone(bare.value)
        self.assertEqual(list(bare.attributes), ["b", "a"])

    def test_plural_forms(self):
        made = bundle("emails = { $n ->\n    [one] one new message\n   *[other] { $n } new messages\n }\n")
        self.assertEqual([shown(made, "emails", {"n": n})[0] for n in (1, 1.0, 2, 2.5)],
                         ["one new message", "one new message", "2 new messages", "2.5 new messages"])

    def test_overrides(self):
        made = bundle("foo = Foo\n")
        made.add_resource(FluentResource("foo = Bar\n"))
        self.assertEqual(shown(made, "foo"), ("Foo", []))
        made.add_resource(FluentResource("foo = Bar\n"), allow_overrides=True)
        self.assertEqual(shown(made, "foo"), ("Bar", []))

    def test_the_order_of_arguments(self):
        made = FluentBundle(["en-US"], None, False)
        made.add_resource(FluentResource("a = <{ $x }>\n"))
        self.assertEqual(shown(made, "a", {"x": "y"}), ("<y>", []))
        made = FluentBundle(locales=["en-US"], functions={"F": lambda: "f"}, use_isolating=True)
        made.add_resource(FluentResource("a = <{ F() }>\n"))
        self.assertEqual(shown(made, "a"), ("<\u2068f\u2069>", []))
        self.assertEqual(made.locales, ["en-US"])

    def test_a_message_without_a_value(self):
        with self.assertRaises(TypeError):
            bundle("foo =\n    .attr = A\n").format_pattern(None)

    def test_a_whole_source_alone(self):
        with self.assertRaises(TypeError):
            FluentResource(b"a = A\n")


class Functions(unittest.TestCase):
    def test_a_function(self):
        source = """
welcome = { OS() ->
    [linux]    Welcome to Linux
    [mac]      Welcome to Mac
    [windows]  Welcome to Windows
   *[other]    Welcome
  }
"""
        for name, text in (("linux", "Welcome to Linux"), ("other", "Welcome"), ("beos", "Welcome")):
            made = FluentBundle(["en-US"], functions={"OS": lambda: name})
            made.add_resource(FluentResource(source))
            self.assertEqual(shown(made, "welcome"), (text, []))

    SOURCE = """
cat = Cat
    .plural = Cats
no-value   = { ECHO() }
text       = { ECHO("mouse") }
number     = { ECHO(7) }
message    = { ECHO(cat) }
attribute  = { ECHO(cat.plural) }
argument   = { ECHO($animal) }
call       = { ECHO(ECHO(7)) }
named      = { SUM(7, more: 3) }
other-name = { SUM(7, less: 3) }
division   = { HALVES(7) }
type       = { SUM("mouse") }
unknown    = { HOWL(7) }
"""

    def shown(self, message_id, args=None):
        functions = {"ECHO": lambda x: x, "SUM": lambda x, more=0: fluent_number(x + more), "HALVES": lambda x: x / 0}
        made = FluentBundle(["en-US"], functions, use_isolating=False)
        made.add_resource(FluentResource(self.SOURCE))
        return shown(made, message_id, args)

    def test_values(self):
        for message_id, text in (("text", "mouse"), ("number", "7"), ("message", "Cat"), ("attribute", "Cats"), ("call", "7"),
                                 ("named", "10")):
            self.assertEqual(self.shown(message_id), (text, []))
        self.assertEqual(self.shown("argument", {"animal": "Dog"}), ("Dog", []))

    def test_what_fails(self):
        for message_id, text, error in (("no-value", "ECHO()", TypeError), ("other-name", "SUM()", TypeError),
                                        ("division", "HALVES()", ZeroDivisionError), ("type", "SUM()", TypeError)):
            shown_text, errors = self.shown(message_id)
            self.assertEqual((shown_text, [type(each) for each in errors]), (text, [error]))

    def test_what_is_missing(self):
        # Unlike: there the text has no braces.
        self.assertEqual(self.shown("unknown"), ("{HOWL()}", [FluentReferenceError("Unknown function: HOWL")]))

    def test_named_arguments(self):
        calls = []

        def function(first, second=None, third="usual"):
            calls.append((first, second, third))
            return first

        made = FluentBundle(["en-US"], {"F": function}, use_isolating=False)
        made.add_resource('a = { F("x") }\nb = { F("x", second: 5) }\nc = { F("x", third: "y") }\n'
                          'd = { F("x", third: "y", second: 5) }\n')
        for message_id in "abcd":
            self.assertEqual(shown(made, message_id), ("x", []))
        self.assertEqual(calls, [("x", None, "usual"), ("x", 5, "usual"), ("x", None, "y"), ("x", 5, "y")])

    def test_what_is_none(self):
        # Not sure: a FluentNone is shown by its name, or else by question marks; here by the function's name.
        for given, text in ((FluentNone("here"), "here"), (FluentNone(), "F()")):
            made = FluentBundle(["en-US"], {"F": lambda: given}, use_isolating=False)
            made.add_resource("a = { F() }\n")
            self.assertEqual(shown(made, "a"), (text, []))

    def test_types_of_a_program(self):
        class Money(FluentType):
            def format(self, locale):
                return "five"

        self.assertEqual(shown(bundle("a = { $x }!\n"), "a", {"x": Money()}), ("five!", []))


class Errors(unittest.TestCase):
    def test_references(self):
        source = "a = { m }{ m.x }{ -t }{ F() }{ o }\no =\n    .x = X\nt = { -u.x ->\n   *[x] x\n }\n"
        errors = [FluentReferenceError(text) for text in (
            "Unknown message: m", "Unknown attribute: m.x", "Unknown term: -t", "Unknown function: F", "No pattern: o")]
        self.assertEqual(shown(bundle(source), "a")[1], errors)
        self.assertEqual(shown(bundle(source), "t")[1], [FluentReferenceError("Unknown attribute: -u.x")])

    def test_cycles(self):
        # Unlike: there question marks are shown for it.
        text, errors = shown(bundle("foo = Foo { bar }\nbar = Bar { foo }\n"), "foo")
        self.assertEqual(errors, [FluentCyclicReferenceError("Cyclic reference")])
        self.assertTrue(text.startswith("Foo Bar "))

    def test_limits(self):
        text, errors = shown(bundle("many = " + "{ 1 }" * 101), "many")
        self.assertEqual((text, [type(error) for error in errors]), ("1" * 100, [FluentFormatError]))

    def test_classes(self):
        error = FluentReferenceError("x")
        self.assertIsInstance(error, FluentFormatError)
        self.assertIsInstance(error, ValueError)
        self.assertEqual(error, FluentReferenceError("x"))
        self.assertNotEqual(error, FluentCyclicReferenceError("x"))
        self.assertEqual(len({error, FluentReferenceError("x")}), 1)

    def test_builtins(self):
        self.assertEqual(BUILTINS, {"NUMBER": fluent_number, "DATETIME": fluent_date})
        self.assertEqual((NUMBER, DATETIME), (fluent_number, fluent_date))

    def test_many(self):
        text, errors = shown(bundle("many = " + "{ $a-name-that-is-long }" * 99), "many")
        self.assertEqual(errors, [FluentReferenceError("Unknown external: a-name-that-is-long")] * 99)


class Localized(unittest.TestCase):
    FILES = {"de/one.ftl": "one = in German\n", "fr/two.ftl": "three = in French\n",
             "en/one.ftl": "one = in English\n", "en/two.ftl": "two = in English, { $x }\nonly =\n    .a = A\n"}

    def setUp(self):
        folder = tempfile.TemporaryDirectory()
        self.addCleanup(folder.cleanup)
        self.root = folder.name
        for name, text in self.FILES.items():
            path = os.path.join(self.root, name)
            os.makedirs(os.path.dirname(path), exist_ok=True)
            with open(path, "w", encoding="utf-8") as file:
                file.write(text)

    def localization(self, locales=("de", "fr", "en"), names=("one.ftl", "two.ftl"), roots="{locale}"):
        loader = FluentResourceLoader(os.path.join(self.root, roots))
        return FluentLocalization(list(locales), list(names), loader)

    def test_the_first_language(self):
        made = self.localization()
        self.assertEqual(made.format_value("one"), "in German")
        self.assertEqual(made.format_value("two", {"x": "so"}), "in English, so")
        self.assertEqual(made.format_value("three"), "in French")

    def test_what_is_missing_is_its_id(self):
        made = self.localization()
        self.assertEqual([made.format_value(name) for name in ("gone", "only")], ["gone", "only"])

    def test_languages_are_loaded_as_they_are_asked(self):
        made = self.localization()
        made.format_value("one")
        self.assertEqual(len(made._bundle_cache), 1)

    def test_settings_are_handed_on(self):
        class Other(FluentBundle):
            pass

        loader = FluentResourceLoader(os.path.join(self.root, "{locale}"))
        made = FluentLocalization(["en"], ["one.ftl", "three.ftl"], loader, True, Other, {"F": lambda: "f"})
        with open(os.path.join(self.root, "en/three.ftl"), "w", encoding="utf-8") as file:
            file.write("f = <{ F() }>\n")
        self.assertEqual(made.format_value("f"), "<\u2068f\u2069>")
        self.assertIsInstance(made._bundle_cache[0], Other)

    def test_each_locale_is_followed_by_the_others(self):
        made = self.localization()
        made.format_value("gone")
        self.assertEqual([each.locales for each in made._bundle_cache], [["de", "fr", "en"], ["fr", "en"], ["en"]])

    def test_threads(self):
        class Slow(FluentResourceLoader):
            def resources(self, locale, resource_ids):
                time.sleep(0.01)
                yield from super().resources(locale, resource_ids)

        made = FluentLocalization(["de", "fr", "en"], ["one.ftl", "two.ftl"], Slow(os.path.join(self.root, "{locale}")))
        with ThreadPoolExecutor(8) as pool:
            texts = list(pool.map(lambda _: made.format_value("two", {"x": "so"}), range(8)))
        self.assertEqual((texts, len(made._bundle_cache)), (["in English, so"] * 8, 3))

    def test_several_roots(self):
        loader = FluentResourceLoader([os.path.join(self.root, root) for root in ("nowhere/{locale}", "{locale}")])
        self.assertEqual(FluentLocalization(["en"], ["one.ftl"], loader).format_value("one"), "in English")


class Chains(unittest.TestCase):
    def test_which_answers(self):
        made = FluentChain(["pl", "en"])
        polish, english = made.bundles
        polish.add_resource("a = A\nb =\n    .t = T\n")
        english.add_resource("b = B\n")
        self.assertIs(made.bundle_of("a"), polish)
        self.assertIs(made.bundle_of("b"), english)
        self.assertIs(made.bundle_of("b", "t"), polish)
        for words in (("gone",), ("a", "t")):
            with self.assertRaises(LookupError):
                made.bundle_of(*words)
        made.close()
        with self.assertRaisesRegex(ValueError, "closed"):
            made.bundle_of("a")


class Versions(unittest.TestCase):
    def test_all_are_the_same(self):
        project = (TOP / "bindings/python/pyproject.toml").read_text(encoding="utf-8")
        header = (TOP / "c/fluent.h").read_text(encoding="utf-8")
        self.assertIn(f'\nversion = "{fluent_rattle.__version__}"\n', project)
        self.assertIn(f'\n#define FLUENT_VERSION "{fluent_rattle.__version__}"\n', header)

    def test_another(self):
        _library._loaded.cache_clear()
        self.addCleanup(_library._loaded.cache_clear)
        with mock.patch.object(_library, "VERSION", "9.9.9"):
            with self.assertRaisesRegex(OSError, "has version .*, and fluent_rattle 9.9.9"):
                FluentBundle("en", library=LIBRARY)


if __name__ == "__main__":
    unittest.main()
