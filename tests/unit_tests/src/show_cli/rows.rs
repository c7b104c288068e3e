//! Runs on whole inputs: words and source, and what they come to.

use crate::show_cli::outcome::{Outcome, expect_run};
use std::alloc::{AllocError, Global};
use std::process::Abort;
use std::test::Fail;

pub type Row<'x> = (&'x [&'x str], &'x [u8], Outcome<'x>);

const INTRO: &[u8] = b"intro = Welcome, { $name }.";

pub fn expect_rows(rt: &impl Abort, alloc: Global, rows: &[Row]) -> Result<(), AllocError> {
    for (words, source, want) in rows {
        expect_run(rt, alloc, *words, *source, *want)?;
    }
    Ok(())
}

const ISOLATED: &str = "Welcome, \u{2068}John\u{2069}.\n";

const SHOWN: &[Row] = &[
    (&["intro", "name=John"], INTRO, (0, ISOLATED, "")),
    (
        &["--no-isolate", "intro", "name=John"],
        INTRO,
        (0, "Welcome, John.\n", ""),
    ),
    (
        &["intro", "name=Jane", "name=John"],
        INTRO,
        (0, ISOLATED, ""),
    ),
    (
        &["intro", "name=a=b"],
        INTRO,
        (0, "Welcome, \u{2068}a=b\u{2069}.\n", ""),
    ),
    (
        &["intro", "name="],
        INTRO,
        (0, "Welcome, \u{2068}\u{2069}.\n", ""),
    ),
];

#[test]
fn shows_the_message(rt: HostRuntime) -> Result<(), Fail> {
    Ok(expect_rows(&rt, rt.alloc(), SHOWN)?)
}

const NUMBER: &[u8] = b"n = { $n }";

const NUMBERS: &[Row] = &[
    (&["n", "n=007"], NUMBER, (0, "7\n", "")),
    (&["n", "n=1.50"], NUMBER, (0, "1.50\n", "")),
    (&["n", "n=.5"], NUMBER, (0, "0.5\n", "")),
    (&["n", "n=-3"], NUMBER, (0, "-3\n", "")),
    (&["n", "n=1e3"], NUMBER, (0, "1e3\n", "")),
    (&["n", "n=7 "], NUMBER, (0, "7 \n", "")),
];

#[test]
fn takes_numbers_for_numbers(rt: HostRuntime) -> Result<(), Fail> {
    Ok(expect_rows(&rt, rt.alloc(), NUMBERS)?)
}

const MISSING: &str = "Welcome, \u{2068}{$name}\u{2069}.\n";

const REPORTED: &[Row] = &[
    (
        &["a"],
        b"NUMBER = one\na = two\n-a = three\n-b = four\n-b = five",
        (
            0,
            "two\n",
            "Attempt to override an existing message: \"NUMBER\".\nAttempt to override an existing term: \"a\".\nAttempt to override an existing term: \"b\".\n",
        ),
    ),
    (
        &["NUMBER"],
        b"NUMBER = one",
        (
            1,
            "",
            "Attempt to override an existing message: \"NUMBER\".\nfluent_show: no message with a value: NUMBER\n",
        ),
    ),
    (
        &["intro"],
        INTRO,
        (0, MISSING, "Resolver error: Unknown variable: $name\n"),
    ),
    (
        &["intro"],
        b"intro = Welcome, { $name }.\nintro = Hi, { $name }.\nb = { $x",
        (
            0,
            MISSING,
            "Parser error: unreadable entry at bytes 51..59\nAttempt to override an existing message: \"intro\".\nResolver error: Unknown variable: $name\n",
        ),
    ),
];

#[test]
fn reports_errors_in_order(rt: HostRuntime) -> Result<(), Fail> {
    Ok(expect_rows(&rt, rt.alloc(), REPORTED)?)
}

pub const USAGE: &str = "usage: fluent_show [--no-isolate] ID [NAME=VALUE]..\n";

pub const NOT_UTF8: &str = "fluent_show: standard input is not UTF-8\n";

const FAILED: &[Row] = &[
    (
        &["nope"],
        INTRO,
        (1, "", "fluent_show: no message with a value: nope\n"),
    ),
    (
        &[""],
        b"",
        (1, "", "fluent_show: no message with a value: \n"),
    ),
    (&[], INTRO, (2, "", USAGE)),
    (&["--no-isolate"], INTRO, (2, "", USAGE)),
    (&["--other", "intro"], INTRO, (2, "", USAGE)),
    (
        &["--no-isolate", "--no-isolate", "intro"],
        INTRO,
        (2, "", USAGE),
    ),
    (&["intro", "name"], INTRO, (2, "", USAGE)),
    (&["intro", "name=John", "=John"], INTRO, (2, "", USAGE)),
    (&["intro", "--no-isolate"], INTRO, (2, "", USAGE)),
    (&["--"], INTRO, (2, "", USAGE)),
    (&["a"], b"a = \xFF", (2, "", NOT_UTF8)),
    (&["a"], b"a = \xE2\x81", (2, "", NOT_UTF8)),
];

#[test]
fn refuses_what_it_cannot_show(rt: HostRuntime) -> Result<(), Fail> {
    Ok(expect_rows(&rt, rt.alloc(), FAILED)?)
}
