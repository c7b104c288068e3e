//! Texts that are numbers, and the texts that numbers have, each by a decimal and by a number with options.
use crate::check::{Row, check_rows, is_same, is_text};
use fluent_intl::{Decimal, FluentNumber, FluentNumberOptions, NotANumber, PluralOperands};
use std::alloc::{AllocError, Global};
use std::borrow::CowStr;
use std::str::FromStr;

/// 10^17, a tenth in units.
const TENTH: u64 = 100_000_000_000_000_000;

const QUARTER: u64 = 250_000_000_000_000_000;

/// The sign, whole part and fraction of a number, and the digits after the point of its text.
type Parts = (bool, u64, u64, Option<usize>);

/// A text, and what it is read as, where it is a number.
type Reading = (&'static str, Option<Parts>);

const READ: &[Reading] = &[
    ("5", Some((false, 5, 0, None))),
    ("+5.", Some((false, 5, 0, Some(0)))),
    (".50", Some((false, 0, 5 * TENTH, Some(2)))),
    ("-0", Some((false, 0, 0, None))),
    ("18446744073709551615", Some((false, u64::MAX, 0, None))),
    ("0005", Some((false, 5, 0, None))),
    ("1.000000000000000001", Some((false, 1, 1, Some(18)))),
    ("-1.5", Some((true, 1, 5 * TENTH, Some(1)))),
    ("-1.9", Some((true, 1, 9 * TENTH, Some(1)))),
    ("007.250", Some((false, 7, QUARTER, Some(3)))),
    ("0.000000000000000001", Some((false, 0, 1, Some(18)))),
    ("5.0", Some((false, 5, 0, Some(1)))),
    ("0.5", Some((false, 0, 5 * TENTH, Some(1)))),
    ("1.25", Some((false, 1, QUARTER, Some(2)))),
    ("-.5", Some((true, 0, 5 * TENTH, Some(1)))),
    ("100", Some((false, 100, 0, None))),
    ("18446744073709551616", None),
    (".", None),
    ("1e5", None),
    ("inf", None),
    ("1 ", None),
    ("", None),
    ("-", None),
    ("+-5", None),
    ("--1", None),
    ("1.2.3", None),
    ("1.0000000000000000000", None),
    ("0.0000000000000000001", None),
];

/// The number that a text is.
pub fn number(text: &str) -> Option<FluentNumber> {
    FluentNumber::from_str(text).ok()
}

/// The plural operands of the number that a text is.
pub fn operands(text: &str) -> Option<PluralOperands> {
    match number(text) {
        Some(number) => Some(PluralOperands::from(&number)),
        None => None,
    }
}

/// A number with a minimum of fraction digits.
pub fn with_minimum(value: Decimal, minimum: Option<usize>) -> FluentNumber {
    let mut options = FluentNumberOptions::default();
    options.minimum_fraction_digits = minimum;
    FluentNumber::new(value, options)
}

/// The value that a text is read as, and its count of digits after the point.
fn read(text: &str) -> Option<(Decimal, Option<usize>)> {
    Decimal::from_text(text).ok()
}

/// The value that a text is read as.
pub fn value(text: &str) -> Option<Decimal> {
    match read(text) {
        Some((value, _)) => Some(value),
        None => None,
    }
}

fn read_as_number(text: &str) -> Option<(Decimal, Option<usize>)> {
    match number(text) {
        Some(number) => Some((number.value, number.options.minimum_fraction_digits)),
        None => None,
    }
}

fn reads_as(text: &str, wanted: Option<(Decimal, Option<usize>)>) -> bool {
    read(text) == wanted && read_as_number(text) == wanted
}

fn reads_as_number(text: &str, parts: &Parts) -> bool {
    match Decimal::new(parts.0, parts.1, parts.2) {
        Some(number) => reads_as(text, Some((number, parts.3))),
        None => false,
    }
}

impl Row for Reading {
    fn holds(&self, _alloc: Global) -> bool {
        match &self.1 {
            Some(parts) => reads_as_number(self.0, parts),
            None => Decimal::from_text(self.0) == Err(NotANumber) && reads_as(self.0, None),
        }
    }
}

#[test]
fn reads_texts(rt: HostRuntime) {
    check_rows(&rt, rt.alloc(), READ);
}

/// The sign, whole part and fraction of a number, a minimum, and its text.
type Writing = (bool, u64, u64, Option<usize>, &'static str);

const WRITTEN: &[Writing] = &[
    (false, 5, 0, Some(0), "5."),
    (false, 0, 5 * TENTH, Some(2), "0.50"),
    (false, 1, QUARTER, Some(1), "1.25"),
    (false, 1, QUARTER, None, "1.25"),
    (false, 1, QUARTER, Some(400), "1.250000000000000000"),
    (false, 5, 0, None, "5"),
    (true, 0, 0, None, "0"),
    (true, 0, 0, Some(1), "0.0"),
    (true, 0, 1, None, "-0.000000000000000001"),
    (
        true,
        u64::MAX,
        0,
        Some(18),
        "-18446744073709551615.000000000000000000",
    ),
    (false, 1, QUARTER, Some(3), "1.250"),
    (false, 0, 5 * TENTH, Some(0), "0.5"),
    (false, 0, 5 * TENTH, Some(19), "0.500000000000000000"),
    (false, 5, 0, Some(400), "5.000000000000000000"),
    (true, 0, 5 * TENTH, None, "-0.5"),
    (false, 100, 0, Some(1), "100.0"),
];

fn is_number_text(found: &Result<CowStr<'static>, AllocError>, text: &str) -> bool {
    match found {
        Ok(found) => is_same(found.as_str(), text),
        Err(AllocError) => false,
    }
}

/// Whether a number and its value, with the number's minimum, have a text.
fn has_text(alloc: Global, number: &FluentNumber, text: &str) -> bool {
    let minimum = number.options.minimum_fraction_digits;
    is_text(&number.value.as_text(alloc, minimum), text)
        && is_number_text(&number.as_string(alloc), text)
}

impl Row for Writing {
    fn holds(&self, alloc: Global) -> bool {
        match Decimal::new(self.0, self.1, self.2) {
            Some(value) => has_text(alloc, &with_minimum(value, self.3), self.4),
            None => false,
        }
    }
}

#[test]
fn writes_texts(rt: HostRuntime) {
    check_rows(&rt, rt.alloc(), WRITTEN);
}
