//! Runs with plural rules and with a fallback from the command line.

use crate::show_cli::rows::{NOT_UTF8, Row, USAGE, expect_rows};
use std::test::Fail;

const COUNT: &[u8] = b"s = { $n ->\n    [one] 1\n    [few] f\n   *[other] o\n}\n";

const RANK: &[u8] = b"s = { NUMBER($n, type: \"ordinal\") ->\n    [two] t\n   *[other] o\n}\n";

const RULES: &[Row] = &[
    (&["s", "n=1"], COUNT, (0, "1\n", "")),
    (
        &["--cardinal", "few: n = 2..4", "s", "n=3"],
        COUNT,
        (0, "f\n", ""),
    ),
    (
        &["--cardinal", "few: n = 2..4", "s", "n=1"],
        COUNT,
        (0, "o\n", ""),
    ),
    (&["--cardinal", "", "s", "n=1"], COUNT, (0, "o\n", "")),
    // One text alone leaves the other empty.
    (
        &["--ordinal", "two: n = 5", "s", "n=1"],
        COUNT,
        (0, "o\n", ""),
    ),
    (
        &["--ordinal", "two: n = 5", "s", "n=5"],
        RANK,
        (0, "t\n", ""),
    ),
    (
        &["--cardinal", "two: n = 5", "s", "n=5"],
        RANK,
        (0, "o\n", ""),
    ),
    (
        &[
            "--ordinal",
            "two: n = 5",
            "--cardinal",
            "few: n = 5",
            "s",
            "n=5",
        ],
        COUNT,
        (0, "f\n", ""),
    ),
    (
        &[
            "--cardinal",
            "few: n = 5",
            "--ordinal",
            "two: n = 5",
            "s",
            "n=5",
        ],
        RANK,
        (0, "t\n", ""),
    ),
    // The text of an option may be a word that is one itself.
    (
        &["--fallback", "--cardinal", "s", "n=1"],
        COUNT,
        (0, "1\n", "Parser error: unreadable entry at bytes 0..10\n"),
    ),
];

#[test]
fn asks_the_rules_that_are_given(rt: HostRuntime) -> Result<(), Fail> {
    Ok(expect_rows(&rt, rt.alloc(), RULES)?)
}

const BAD_RULE: &str = "fluent_show: bad plural rule\n";

const BAD_RULES: &[Row] = &[
    (&["--cardinal", "one", "s"], COUNT, (2, "", BAD_RULE)),
    (
        &["--ordinal", "one: n % 0 = 1", "s", "n=1"],
        COUNT,
        (2, "", BAD_RULE),
    ),
    (
        &["--cardinal", "one: n = 1", "--ordinal", "one: n is 1", "s"],
        COUNT,
        (2, "", BAD_RULE),
    ),
    (
        &["--cardinal", "--no-isolate", "s"],
        COUNT,
        (2, "", BAD_RULE),
    ),
    // Usage comes first, then the rules, then the input.
    (&["--cardinal", "one", "s", "n"], COUNT, (2, "", USAGE)),
    (&["--cardinal", "one", "s"], b"s = \xFF", (2, "", BAD_RULE)),
    (&["--cardinal", "", "s"], b"s = \xFF", (2, "", NOT_UTF8)),
];

#[test]
fn refuses_rules_that_it_cannot_read(rt: HostRuntime) -> Result<(), Fail> {
    Ok(expect_rows(&rt, rt.alloc(), BAD_RULES)?)
}

const FAILED: &[Row] = &[
    (&["--cardinal"], COUNT, (2, "", USAGE)),
    (&["--ordinal"], COUNT, (2, "", USAGE)),
    (&["--fallback"], COUNT, (2, "", USAGE)),
    (&["--cardinal", ""], COUNT, (2, "", USAGE)),
    (&["--fallback", "s = 1", "--ordinal"], COUNT, (2, "", USAGE)),
    (
        &["--cardinal", "", "--cardinal", "", "s"],
        COUNT,
        (2, "", USAGE),
    ),
    (
        &["--ordinal", "", "--cardinal", "", "--ordinal", "", "s"],
        COUNT,
        (2, "", USAGE),
    ),
    (
        &["--fallback", "", "--fallback", "", "s"],
        COUNT,
        (2, "", USAGE),
    ),
    (
        &["--no-isolate", "--cardinal", "", "--no-isolate", "s"],
        COUNT,
        (2, "", USAGE),
    ),
    (&["s", "--cardinal", ""], COUNT, (2, "", USAGE)),
    (&["--cardinal=", "s"], COUNT, (2, "", USAGE)),
];

#[test]
fn refuses_options_that_are_not_of_the_form(rt: HostRuntime) -> Result<(), Fail> {
    Ok(expect_rows(&rt, rt.alloc(), FAILED)?)
}

const HELLO: &str = "hello = Hi { $name }!";

const FALLBACKS: &[Row] = &[
    (&["--fallback", "b = two", "b"], b"a = 1", (0, "two\n", "")),
    (&["--fallback", "b = two", "a"], b"a = 1", (0, "1\n", "")),
    (&["--fallback", "b = two", "zz"], b"a = 1", (0, "zz\n", "")),
    (&["--fallback", "a = 2", "a"], b"a = 1", (0, "1\n", "")),
    (
        &["--fallback", "a = 2", "a"],
        b"a =\n    .t = 1",
        (0, "2\n", ""),
    ),
    (&["--fallback", "", "a"], b"", (0, "a\n", "")),
    // Each bundle looks up references in itself alone.
    (
        &["--fallback", "b = 2", "a"],
        b"a = { b }",
        (0, "{b}\n", "Resolver error: Unknown message: b\n"),
    ),
    // Both have the same settings.
    (
        &["--fallback", HELLO, "hello", "name=Jo"],
        b"a = 1",
        (0, "Hi \u{2068}Jo\u{2069}!\n", ""),
    ),
    (
        &["--no-isolate", "--fallback", HELLO, "hello", "name=Jo"],
        b"a = 1",
        (0, "Hi Jo!\n", ""),
    ),
    (
        &["--fallback", HELLO, "--no-isolate", "hello", "name=Jo"],
        b"hello = Hello { $name }.",
        (0, "Hello Jo.\n", ""),
    ),
    (
        &[
            "--cardinal",
            "few: n = 2..4",
            "--fallback",
            "s = { $n ->\n    [few] f\n   *[other] o\n}\n",
            "s",
            "n=3",
        ],
        b"",
        (0, "f\n", ""),
    ),
    (
        &["--fallback", "s = { NUMBER(5) }", "s"],
        b"",
        (0, "5\n", ""),
    ),
];

#[test]
fn falls_back_where_the_input_has_no_value(rt: HostRuntime) -> Result<(), Fail> {
    Ok(expect_rows(&rt, rt.alloc(), FALLBACKS)?)
}

const ALL_ERRORS: &str =
    "Parser error: unreadable entry at bytes 12..16\nParser error: unreadable entry at bytes 0..5\nAttempt to override an existing message: \"a\".\nAttempt to override an existing message: \"NUMBER\".\nAttempt to override an existing message: \"x\".\nResolver error: Unknown variable: $n\n";

const REPORTED: &[Row] = &[
    (
        &["--fallback", "junk\nNUMBER = 1\nx = { $n }\nx = 2", "x"],
        b"a = 1\na = 2\njunk",
        (0, "{$n}\n", ALL_ERRORS),
    ),
    (
        &["--fallback", "junk", "zz"],
        b"a = 1",
        (0, "zz\n", "Parser error: unreadable entry at bytes 0..4\n"),
    ),
];

#[test]
fn reports_errors_of_both_sources_in_order(rt: HostRuntime) -> Result<(), Fail> {
    Ok(expect_rows(&rt, rt.alloc(), REPORTED)?)
}
