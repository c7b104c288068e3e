//! Numbers and whole numbers of each type.

use crate::check::{Row, check, check_rows};
use crate::internals::numbers::number;
use fluent_intl::FluentNumber;
use std::alloc::Global;
use test_contracts::whole::{
    again_i8, again_i16, again_i32, again_i64, again_isize, again_u8, again_u16, again_u32,
    again_u64, again_usize,
};

/// A whole number as each signed type.
type Signed = (i8, i16, i32, i64, isize, i128);

/// A whole number as each unsigned type.
type Unsigned = (u8, u16, u32, u64, usize, u128);

/// A text of a number, and what each type takes out of it: it is cut toward zero, and nearest to it in the type.
type Taken = (&'static str, Signed, Unsigned);

const TAKEN: &[Taken] = &[
    ("-1.9", (-1, -1, -1, -1, -1, -1), (0, 0, 0, 0, 0, 0)),
    (
        "300",
        (127, 300, 300, 300, 300, 300),
        (255, 300, 300, 300, 300, 300),
    ),
    (
        "-300",
        (-128, -300, -300, -300, -300, -300),
        (0, 0, 0, 0, 0, 0),
    ),
    (
        "18446744073709551615",
        (
            i8::MAX,
            i16::MAX,
            i32::MAX,
            i64::MAX,
            isize::MAX,
            u64::MAX as i128,
        ),
        (
            u8::MAX,
            u16::MAX,
            u32::MAX,
            u64::MAX,
            usize::MAX,
            u64::MAX as u128,
        ),
    ),
];

fn is_taken_signed(number: &FluentNumber, wanted: &Signed) -> bool {
    i8::from(number) == wanted.0
        && i16::from(number) == wanted.1
        && i32::from(number) == wanted.2
        && i64::from(number) == wanted.3
        && isize::from(number) == wanted.4
        && i128::from(number) == wanted.5
}

fn is_taken_unsigned(number: &FluentNumber, wanted: &Unsigned) -> bool {
    u8::from(number) == wanted.0
        && u16::from(number) == wanted.1
        && u32::from(number) == wanted.2
        && u64::from(number) == wanted.3
        && usize::from(number) == wanted.4
        && u128::from(number) == wanted.5
}

fn is_taken(number: &Option<FluentNumber>, signed: &Signed, unsigned: &Unsigned) -> bool {
    match number {
        Some(number) => is_taken_signed(number, signed) && is_taken_unsigned(number, unsigned),
        None => false,
    }
}

impl Row for Taken {
    fn holds(&self, _alloc: Global) -> bool {
        is_taken(&number(self.0), &self.1, &self.2)
    }
}

fn signed_numbers_come_out_again() -> bool {
    again_i8(i8::MAX) == i8::MAX
        && again_i8(i8::MIN) == i8::MIN
        && again_i16(i16::MAX) == i16::MAX
        && again_i16(i16::MIN) == i16::MIN
        && again_i32(i32::MAX) == i32::MAX
        && again_i32(i32::MIN) == i32::MIN
        && again_i64(i64::MAX) == i64::MAX
        && again_i64(i64::MIN) == i64::MIN
        && again_isize(isize::MAX) == isize::MAX
        && again_isize(isize::MIN) == isize::MIN
}

fn other_numbers_come_out_again() -> bool {
    again_u8(u8::MAX) == u8::MAX
        && again_u8(u8::MIN) == u8::MIN
        && again_u16(u16::MAX) == u16::MAX
        && again_u16(u16::MIN) == u16::MIN
        && again_u32(u32::MAX) == u32::MAX
        && again_u32(u32::MIN) == u32::MIN
        && again_u64(u64::MAX) == u64::MAX
        && again_u64(u64::MIN) == u64::MIN
        && again_usize(usize::MAX) == usize::MAX
        && again_usize(usize::MIN) == usize::MIN
}

#[test]
fn whole_numbers_are_taken(rt: HostRuntime) {
    check_rows(&rt, rt.alloc(), TAKEN);
    check(&rt, signed_numbers_come_out_again(), "signed numbers");
    check(&rt, other_numbers_come_out_again(), "other numbers");
}
