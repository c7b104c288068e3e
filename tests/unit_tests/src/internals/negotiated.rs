//! Tests of the languages that serve somebody; what RFC 4647 has as examples stands with the definitions.
use crate::check::{Row, check_rows};
use fluent_langneg::{lookup, negotiate};
use std::alloc::{AllocError, Global};

/// What a program has.
const TAGS: [&str; 4] = ["en", "pt_BR", "zh-Hant", "pt"];

/// The ranges that are requested, and the places of the languages that serve them and then `en`.
type Order = (&'static [&'static str], &'static [usize]);

const ORDERS: &[Order] = &[
    (&[], &[0]),
    (&["PT-br-x-y", "zh-hant-TW"], &[1, 2, 0]),
    (&["pt-AO", "pt-BR", "pt"], &[3, 1, 0]),
    (&["en-GB", "*", "zh"], &[0]),
];

/// Where an allocation fails it is asked again.
fn order(alloc: Global, requested: &[&str]) -> Result<Vec<usize>, AllocError> {
    match negotiate(alloc, requested, &TAGS, "en") {
        Ok(places) => Ok(places),
        Err(AllocError) => negotiate(alloc, requested, &TAGS, "en"),
    }
}

impl Row for Order {
    fn holds(&self, alloc: Global) -> bool {
        match order(alloc, self.0) {
            Ok(places) => places.as_slice() == self.1,
            Err(AllocError) => false,
        }
    }
}

/// Run with each allocation failing in turn.
#[test]
fn languages_serve_in_order(rt: HostRuntime) {
    check_rows(&rt, rt.alloc(), ORDERS);
}

/// A range, and the place of the language that serves it.
type Served = (&'static str, Option<usize>);

const SERVED: &[Served] = &[
    ("pt-PT", Some(3)),
    ("zh-Hant-CN-x-private1-private2", Some(2)),
    ("zh-Hans", None),
    ("e", None),
    ("en-", Some(0)),
];

impl Row for Served {
    fn holds(&self, _alloc: Global) -> bool {
        lookup(&TAGS, self.0) == self.1
    }
}

#[test]
fn a_range_is_served_by_a_shorter_tag(rt: HostRuntime) {
    check_rows(&rt, rt.alloc(), SERVED);
}
