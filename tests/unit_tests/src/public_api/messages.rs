//! Messages and attributes that are borrowed are the same where their contents are.

use crate::check::check;
use crate::public_api::common::{message_of, read};
use fluent_bundle::ast::{Attribute, Message};
use std::alloc::Global;
use std::test::Fail;
use test_contracts::equality::{same_attributes, same_messages};

/// That messages and their first attributes are the same, or that neither are.
fn compare<'m, 's>(one: &'m Message<'s>, other: &'m Message<'s>, same: bool) -> bool {
    match (one.attributes.first(), other.attributes.first()) {
        (Some(attribute), Some(beside)) => {
            same_messages(one, other) == same && same_attributes(attribute, beside) == same
        }
        _ => false,
    }
}

/// Two sources, and whether their messages are the same.
const SAME: &[(&str, &str, bool)] = &[
    ("m = one\n    .x = two\n", "m = one\n    .x = two\n", true),
    (
        "m = one\n    .x = two\n",
        "m = one\n    .x = three\n",
        false,
    ),
];

fn is_same(alloc: Global, one: &str, other: &str, same: bool) -> Result<bool, Fail> {
    let first = read(alloc, one)?;
    let second = read(alloc, other)?;
    Ok(compare(message_of(&first)?, message_of(&second)?, same))
}

#[test]
fn equality_is_that_of_contents(rt: HostRuntime) -> Result<(), Fail> {
    for (one, other, same) in SAME {
        check(&rt, is_same(rt.alloc(), *one, *other, *same)?, *one);
    }
    Ok(())
}
