//! Rows of the tables of values: which numbers texts are, and what values are made of.

use crate::internals::common::is_shown;
use fluent_values::types::{FluentNumber, FluentValue, NoCustom};
use std::alloc::{AllocError, Global};
use std::borrow::CowStr;
use std::test::Fail;
use test_contracts::rows::{
    a_text_stays_one, places_are_kept, the_whole_part_may_be_missing, zeros_may_lead,
};

/// A value and how it is shown.
type Row<'s> = (FluentValue<'s, NoCustom>, &'static str);

/// Of texts that are read.
fn read<'s>(i: usize) -> Row<'s> {
    match i {
        0 => (places_are_kept(), "3.141569"),
        1 => (a_text_stays_one(), "\"A string\""),
        2 => (zeros_may_lead(), "7"),
        _ => (the_whole_part_may_be_missing(), "0.5"),
    }
}

/// Of numbers, and of options of one.
fn made<'s>(i: usize) -> Row<'s> {
    match i {
        0 => (FluentValue::from(-128i8), "-128"),
        1 => (FluentValue::from(&u64::MAX), "18446744073709551615"),
        2 => (FluentValue::from(i64::MIN), "-9223372036854775808"),
        3 => (FluentValue::from(FluentNumber::from(7u8)), "7"),
        4 => (FluentValue::from(Some(5usize)), "5"),
        5 => (FluentValue::from(Some(&-1isize)), "-1"),
        6 => (FluentValue::from(5u8), "5"),
        _ => (FluentValue::from(None::<&str>), "nothing"),
    }
}

/// Of strings, borrowed and owned.
fn given<'s>(alloc: Global, i: usize, borrowed: &'s String) -> Result<Row<'s>, AllocError> {
    let value = match i {
        0 => FluentValue::from(borrowed),
        1 => FluentValue::from(Some(CowStr::Borrowed("a"))),
        _ => FluentValue::from(Some(String::from_str(alloc, "a")?)),
    };
    Ok((value, "\"a\""))
}

fn row<'s>(alloc: Global, i: usize, borrowed: &'s String) -> Result<Row<'s>, AllocError> {
    match i {
        0..4 => Ok(read(i)),
        4..12 => Ok(made(i - 4)),
        _ => given(alloc, i - 12, borrowed),
    }
}

#[test]
fn values_are_made_of_texts_and_numbers(rt: HostRuntime) -> Result<(), Fail> {
    let borrowed = String::from_str(rt.alloc(), "a")?;
    for i in 0..15 {
        let (value, text) = row(rt.alloc(), i, &borrowed)?;
        assert!(rt; is_shown(rt.alloc(), &value, text)?, "{text}");
    }
    Ok(())
}
