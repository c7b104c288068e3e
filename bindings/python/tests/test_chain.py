"""Chains: bundles of which the first that has a message answers."""
import copy
import gc
import unittest

from fluent_rattle import FluentBundle, FluentChain

POLISH = "both = pl\nfiles = { $n ->\n    [few] pliki\n   *[other] plików\n }\nhalf =\n    .title = { $x }\n" \
         "refers = { english }\n"
ENGLISH = "both = en\nenglish = only in English\nhalf = half\n    .title = Half\n"


def chain(languages=("pl", "en"), **settings):
    made = FluentChain(languages, use_isolating=False, **settings)
    for bundle, source in zip(made.bundles, (POLISH, ENGLISH)):
        bundle.add_resource(source)
    return made


class Chains(unittest.TestCase):
    def test_the_first_that_has_it(self):
        made = chain()
        self.assertEqual(made.format_value("both"), ("pl", []))
        self.assertEqual(made.format_value("english"), ("only in English", []))
        self.assertEqual(made.format_value("half"), ("half", []))
        self.assertEqual(chain(["en", "pl"]).format_value("files", {"n": 2}), ("plików", []))

    def test_each_by_its_own_rules(self):
        self.assertEqual(chain().format_value("files", {"n": 2}), ("pliki", []))

    def test_references_stay_in_their_bundle(self):
        self.assertEqual(chain().format_value("refers"), ("{english}", ["Resolver error: Unknown message: english"]))

    def test_attributes(self):
        made = chain()
        self.assertEqual(made.format_attribute("half", "title", {"x": 1}), ("1", []))
        self.assertEqual(made.format_attribute("half", "title")[1], ["Resolver error: Unknown variable: $x"])

    def test_what_none_has(self):
        made = chain()
        for message in ("gone", "", "-term"):
            with self.assertRaisesRegex(LookupError, "no message"):
                made.format_value(message)
        for name in ("Title", ""):
            with self.assertRaisesRegex(LookupError, "no attribute"):
                made.format_attribute("half", name)
        self.assertEqual([made.has_message(name) for name in ("both", "english", "gone")], [True, True, False])

    def test_bundles_are_asked_alone_too(self):
        polish, english = chain().bundles
        self.assertIsInstance(polish, FluentBundle)
        self.assertEqual((polish.format_value("both"), english.format_value("both")), (("pl", []), ("en", [])))
        self.assertFalse(polish.has_message("english"))
        self.assertEqual(english.message_ids(), ["both", "english", "half"])

    def test_languages(self):
        self.assertEqual(len(FluentChain("en").bundles), 1)
        self.assertEqual(len(FluentChain([["xx", "pl"], "en"]).bundles), 2)
        self.assertEqual(chain(["en", "xx"]).bundles[1].format_value("half"), ("half", []))
        with self.assertRaisesRegex(ValueError, "a bundle at least"):
            FluentChain([])

    def test_settings_are_of_each(self):
        made = chain(placeable_limit=1)
        for bundle in made.bundles:
            bundle.add_resource("long = { 1 }{ 2 }\n")
        for each in (made, *made.bundles):
            self.assertEqual(each.format_value("long"), ("1", ["Resolver error: Too many placeables"]))

    def test_many(self):
        made = FluentChain(["en"] * 50)
        made.bundles[49].add_resource("last = here\n")
        self.assertEqual(made.format_value("last"), ("here", []))


class Ends(unittest.TestCase):
    def test_closed(self):
        made = chain()
        made.close()
        made.close()
        for call in (lambda: made.format_value("both"), lambda: made.has_message("both"),
                     lambda: made.bundles[1].has_message("both")):
            with self.assertRaisesRegex(ValueError, "the bundle is closed"):
                call()

    def test_one_closed(self):
        made = chain()
        made.bundles[0].close()
        with self.assertRaisesRegex(ValueError, "the bundle is closed"):
            made.format_value("english")

    def test_context(self):
        with chain() as made:
            self.assertEqual(made.format_value("both"), ("pl", []))
        self.assertFalse(any(handle.is_open for handle in made._calls.handles))

    def test_garbage(self):
        made = chain()
        handles, english = made._calls.handles, made.bundles[1]
        del made
        gc.collect()
        self.assertEqual(english.format_value("both"), ("en", []))
        del english
        gc.collect()
        self.assertFalse(any(handle.is_open for handle in handles))

    def test_no_copies(self):
        with self.assertRaisesRegex(TypeError, "neither copied"):
            copy.copy(chain())


if __name__ == "__main__":
    unittest.main()
