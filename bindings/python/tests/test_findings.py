"""What is wrong in sources."""
import unittest

from fluent_rattle import Finding, check

CATEGORIES = "a = { $n ->\n    [few] F\n   *[other] O\n }\n"


class Checks(unittest.TestCase):
    def assert_texts(self, found, *texts):
        self.assertEqual([each.text for each in found], list(texts))

    def test_nothing(self):
        found = check({"x.ftl": "a = A\n"}, "en")
        self.assertEqual(found, [])
        self.assertTrue(found.is_clean)
        self.assertEqual(check({}), [])

    def test_where(self):
        found = check({"x.ftl": "\na = { b }\n"})
        self.assertEqual(found, [Finding("x.ftl", 2, 7, "error", "missing-message", "a", "no message 'b' (in 'a')")])
        self.assertFalse(found.is_clean)

    def test_many(self):
        found = check({f"{n}.ftl": f"a{n} = {{ b{n} }}\n" for n in range(50)})
        self.assertEqual([(each.file, each.entry) for each in found], [(f"{n}.ftl", f"a{n}") for n in range(50)])

    def test_functions(self):
        source = {"x.ftl": "a = { F() }{ G() }\n"}
        self.assert_texts(check(source, functions=["F"]), "no function 'G', unless the application adds it (in 'a')")
        self.assertEqual(check(source, functions=("F", "G")), [])

    def test_language(self):
        self.assert_texts(check({"x": CATEGORIES}))
        wrong = "no variant [one] (in 'a')", "[few] never comes in this language (in 'a')"
        self.assert_texts(check({"x": CATEGORIES}, "en"), *wrong)

    def test_beside(self):
        self.assert_texts(check({"x": "a = { -t }\n"}), "no term '-t' (in 'a')")
        self.assert_texts(check({"x": "a = { -t }\n"}, beside={"brand": "-t = T\n"}))

    def test_references(self):
        found = check({"pl": "a = A\n"}, "pl", references={"en": "a = A\nb = B\n"})
        self.assertEqual(found, [Finding("en", 2, 1, "error", "not-translated", "b", "'b' is not translated")])

    def test_no_text(self):
        for words in ({"x": "\ud800"},), ({"\ud800": ""},), ({}, "\ud800"):
            with self.assertRaises(ValueError):
                check(*words)
        with self.assertRaises(TypeError):
            check({"x": 5})


if __name__ == "__main__":
    unittest.main()
