//! What decimals are made of, and whole numbers of 128 bits.

use crate::check::{Row, check, check_rows};
use fluent_intl::{Decimal, FluentNumber, OutOfRange};
use std::alloc::Global;

const HALF: u64 = 500_000_000_000_000_000;

/// The sign, whole part and fraction of a number, and the number cut toward zero.
type Parts = (bool, u64, u64, i128);

fn has_parts(number: Option<Decimal>, parts: Parts) -> bool {
    match number {
        Some(number) => {
            number.is_negative() == parts.0
                && number.whole() == parts.1
                && number.fraction() == parts.2
                && number.truncated() == parts.3
        }
        None => false,
    }
}

const MADE: &[Parts] = &[
    (true, 1, HALF, -1),
    (false, u64::MAX, 1, u64::MAX as i128),
    (true, u64::MAX, 1, -(u64::MAX as i128)),
];

impl Row for Parts {
    fn holds(&self, _alloc: Global) -> bool {
        has_parts(Decimal::new(self.0, self.1, self.2), *self)
    }
}

/// Whole numbers of 64 bits, and what is no number or not another one.
fn whole_numbers_are_made() -> bool {
    let least = Some(Decimal::from_i64(i64::MIN));
    let most = Some(Decimal::from_u64(u64::MAX));
    has_parts(least, (true, 1 << 63, 0, i64::MIN as i128))
        && has_parts(most, (false, u64::MAX, 0, u64::MAX as i128))
        && Decimal::new(false, 1, 1_000_000_000_000_000_000).is_none()
        && Decimal::new(true, 0, 0) == Decimal::new(false, 0, 0)
}

/// Whether a number was made of the size `u64::MAX`, or refused.
fn is_made_or_refused(made: Result<Decimal, OutOfRange>, fits: bool, negative: bool) -> bool {
    if fits {
        made.ok() == Decimal::new(negative, u64::MAX, 0)
    } else {
        made == Err(OutOfRange)
    }
}

fn signed(whole: i128, fits: bool) -> bool {
    is_made_or_refused(Decimal::try_from_i128(whole), fits, whole < 0)
        && FluentNumber::try_from_i128(whole).is_ok() == fits
}

fn unsigned(whole: u128, fits: bool) -> bool {
    is_made_or_refused(Decimal::try_from_u128(whole), fits, false)
        && FluentNumber::try_from_u128(whole).is_ok() == fits
}

const MOST: i128 = u64::MAX as i128;

/// Whole numbers of 128 bits are numbers up to the size `u64::MAX`.
fn limits_of_whole_numbers() -> bool {
    signed(MOST, true)
        && signed(-MOST, true)
        && signed(MOST + 1, false)
        && signed(-MOST - 1, false)
        && unsigned(MOST as u128, true)
        && unsigned(MOST as u128 + 1, false)
}

#[test]
fn makes_and_takes_numbers(rt: HostRuntime) {
    check_rows(&rt, rt.alloc(), MADE);
    check(&rt, whole_numbers_are_made(), "whole numbers");
    check(&rt, limits_of_whole_numbers(), "limits of whole numbers");
}
