"""The rows of all fixtures that a program in Python can ask."""
import re
import unittest
from collections import Counter
from decimal import Decimal
from unittest import mock

from fluent_rattle import FluentBundle, FluentChain

from .asked import DATA, LEAST, NUMBER, fixtures, reason_in_python, reports, told
from .fixtures import unescaped
from .objects import Star, objects


class Bare(FluentBundle):
    """A bundle with the library's own NUMBER."""

    _builtins = {}


class BareChain(FluentChain):
    bundle_class = Bare


def value(word):
    """The argument that a word of a row stands for."""
    if word == "@star":
        return Star()
    if word.startswith('"'):
        return unescaped(word[1:-1])
    if re.fullmatch("-?[1-9][0-9]*|0", word):
        return int(word)
    return Decimal(word) if NUMBER.fullmatch(word) else word


def opened(settings):
    """A bundle with these settings."""
    words = {"use_isolating": settings.isolating, "placeable_limit": settings.limit, **objects(settings)}
    if settings.cardinal is None and settings.ordinal is None:
        return Bare([settings.language], **words)
    return Bare.from_rules(settings.cardinal or "", settings.ordinal or "", **words)


def chained(links):
    """A chain of links, each of which is opened anew by its own settings."""
    settings = [link.settings for link in links]
    chain = BareChain([each.language for each in settings])
    for bundle, each in zip(chain.bundles, settings):
        if (each.cardinal, each.ordinal) != (None, None):
            raise ValueError("the links of a chain have no rules of their own")
        bundle.close()
        bundle._additions_made = Bare._additions([each.language], **objects(each))
        bundle._open(each.isolating)
        bundle._limit(each.limit)
    return chain


def answer(bundle, row):
    """What the package answers, in the form of what the row wants."""
    if row.sign == "#absent":
        return bundle.has_message(row.id)
    if row.sign == "#attributes":
        return next(each for each in getattr(bundle, "bundles", [bundle]) if each.has_message(row.id)).attributes(row.id)
    args = {name: value(word) for name, word in row.arguments}
    try:
        if row.attribute is None:
            return bundle.format_value(row.id, args)
        return bundle.format_attribute(row.id, row.attribute, args)
    except LookupError:
        return None


def wanted(row):
    if row.sign == "#attributes":
        return row.text.split()
    return {"#absent": False, "#none": None}.get(row.sign, (row.text, row.errors))


class Fixtures(unittest.TestCase):
    # For __main__, which counts each row and each report as a case.
    rows_asked = 0
    reports_asked = 0

    def add(self, name, bundle, fixture):
        """Adds the sources of a fixture's bundle, and compares what is told of each."""
        for source, report in reports(fixture):
            told_of = bundle.add_resource(source.text, allow_overrides=source.is_overriding)
            if report is not None:
                Fixtures.reports_asked += 1
                with self.subTest(file=name, source=source.text[:40]):
                    self.assertEqual(told_of, report)

    def make(self, name, fixture):
        links = fixture.links()
        if len(links) == 1:
            made = opened(fixture.settings)
            self.add(name, made, fixture)
            return made
        made = chained(links)
        for bundle, link in zip(made.bundles, links):
            self.add(name, bundle, link)
        return made

    def ask(self, name, reader, counts):
        bundles = {}
        for row in reader.rows:
            why = reason_in_python(row)
            counts[why or "asked"] += 1
            if why:
                continue
            if id(row.bundle) not in bundles:
                bundles[id(row.bundle)] = self.make(name, row.bundle)
            with self.subTest(file=name, line=row.line):
                self.assertEqual(answer(bundles[id(row.bundle)], row), wanted(row))
        for bundle in bundles.values():
            bundle.close()

    def test_as_many_rows_as_the_other_reader_finds(self):
        ran = re.findall(r"^(\S+\.ftl): (\d+) calls", (DATA.parent / "stdout").read_text(), flags=re.MULTILINE)
        self.assertEqual({name: len(reader.rows) for name, reader in fixtures()}, {name: int(n) for name, n in ran})

    def test_each_row(self):
        for room in (256, 1):
            counts, Fixtures.reports_asked = Counter(), 0
            with mock.patch("fluent_rattle._calls.ROOM", room):
                for name, reader in fixtures():
                    self.ask(name, reader, counts)
            Fixtures.rows_asked = counts["asked"]
            self.assertGreaterEqual(counts["asked"], LEAST["rows from Python"])
            self.assertGreaterEqual(Fixtures.reports_asked, LEAST["reports"])
        print(f"\n{told(counts)}\n{Fixtures.reports_asked} reports of sources")


if __name__ == "__main__":
    unittest.main()
