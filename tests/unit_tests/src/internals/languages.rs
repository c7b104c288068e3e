//! Tests of finding a language's plural rules in a table.

use crate::check::{Row, check_rows, is_same};
use fluent_plural_rules::{LanguageRules, cldr_plurals, cldr_rules, rules_for};
use std::alloc::Global;

/// The cardinal and the ordinal rules of a language.
type Rules = (&'static str, &'static str);

/// What a row shows, a table where it is not CLDR's, a tag, and the rules of its language in the table, where there are
/// any.
type Language = (
    &'static str,
    Option<&'static str>,
    &'static str,
    Option<Rules>,
);

/// CLDR's rules of Swedish.
const SV: Option<Rules> = Some((
    "one: i = 1 and v = 0; other:",
    "one: n % 10 = 1,2 and n % 100 != 11,12; other:",
));

/// CLDR's rules of Portuguese.
const PT: Option<Rules> = Some((
    "one: i = 0..1; many: e = 0 and i != 0 and i % 1000000 = 0 and v = 0 or e != 0..5; other:",
    "other:",
));

/// Those of Portuguese in Portugal, where other numbers are `one`.
const PT_PT: Option<Rules> = Some((
    "one: i = 1 and v = 0; many: e = 0 and i != 0 and i % 1000000 = 0 and v = 0 or e != 0..5; other:",
    "other:",
));

/// Comments, lines that end in two ways, two lines of one tag, an empty line and one with a single tab.
const LINES: Option<&str> = Some(
    "# a\tb\tc\n#d\te\tf\r\nxx\tone: n = 1\tother:\r\nxx\tother:\tother:\n\nyy\tother:",
);

const LANGUAGES: &[Language] = &[
    ("a language has the rules of its line", None, "sv", SV),
    ("so has another language", None, "pt", PT),
    ("a region has the rules of its language", None, "sv-FI", SV),
    ("subtags are dropped one by one", None, "sv-Latn-FI", SV),
    (
        "a region of another language has its rules",
        None,
        "pt-AO",
        PT,
    ),
    ("a region may have rules of its own", None, "pt-PT", PT_PT),
    (
        "a variant has the rules of its region",
        None,
        "pt-PT-variant",
        PT_PT,
    ),
    (
        "case and underscores make no difference",
        None,
        "PT_pt",
        PT_PT,
    ),
    ("nor does case where a region is dropped", None, "Sv_fi", SV),
    (
        "a region of an unknown language has none",
        None,
        "xx-PL",
        None,
    ),
    ("an empty tag has none", None, "", None),
    ("a part of a tag has none", None, "p", None),
    ("an empty language has none", None, "-pl", None),
    ("an empty table has none", Some(""), "pl", None),
    (
        "the first line of a tag counts",
        LINES,
        "xx",
        Some(("one: n = 1", "other:")),
    ),
    ("a comment is no line of a tag", LINES, "#d", None),
    ("nor is a comment with a blank", LINES, "# a", None),
    ("a line with one tab has no rules", LINES, "yy", None),
    (
        "nor has a further line of its tag then",
        Some("xx\tother:\nxx\tone:\tother:"),
        "xx",
        None,
    ),
    (
        "the language's line counts then",
        Some("xx-y\tother:\nxx-y\tone:\tother:\nxx\ttwo:\tother:"),
        "xx-y",
        Some(("two:", "other:")),
    ),
    ("texts may be empty", Some("xx\t\t"), "xx", Some(("", ""))),
    (
        "the second text may hold tabs",
        Some("xx\tother:\tone:\tn = 1"),
        "xx",
        Some(("other:", "one:\tn = 1")),
    ),
];

fn are_rules(found: Option<LanguageRules<'_>>, wanted: Option<Rules>) -> bool {
    match (found, wanted) {
        (Some(found), Some(rules)) => {
            is_same(found.cardinal, rules.0) && is_same(found.ordinal, rules.1)
        }
        (None, None) => true,
        _ => false,
    }
}

impl Row for Language {
    fn holds(&self, _alloc: Global) -> bool {
        match self.1 {
            Some(table) => are_rules(rules_for(table, self.2), self.3),
            None => {
                are_rules(rules_for(cldr_plurals(), self.2), self.3)
                    && are_rules(cldr_rules(self.2), self.3)
            }
        }
    }
}

#[test]
fn languages_have_the_rules_of_their_lines(rt: HostRuntime) {
    check_rows(&rt, rt.alloc(), LANGUAGES);
}
