//! What a chain writes, and the texts of their own that it gives.
use crate::check::{check, check_same};
use crate::public_api::common::{Args, arguments};
use crate::public_api::given::are;
use crate::public_api::lists::{Bundles, list_of, two};
use fluent_bundle::{Counting, FluentError, WriteFault};
use fluent_fallback::Chain;
use std::alloc::{AllocError, Global};
use std::process::Abort;
use std::test::Fail;

/// An id, the name of an attribute or none, the text, and the lines of its errors.
pub type Row = (
    &'static str,
    Option<&'static str>,
    &'static str,
    &'static str,
);

const NO_N: &str = "Resolver error: Unknown variable: $n\n";

const NO_X: &str = "Resolver error: Unknown variable: $x\n";

pub const BOTH: &[Row] = &[
    ("a", None, "1", ""),
    ("b", None, "{$x}", NO_X),
    ("k", None, "v", ""),
    ("c", None, "c", ""),
    ("k", Some("t"), "x", ""),
    ("k", Some("u"), "w", ""),
    ("a", Some("t"), "\u{2068}{$n}\u{2069}y", NO_N),
    ("a", Some("u"), "a", ""),
];

/// Where `$n` is given as 5.
const FIVE: &[Row] = &[
    ("a", Some("t"), "\u{2068}5\u{2069}y", ""),
    ("b", None, "{$x}", NO_X),
    ("c", Some("t"), "c", ""),
];

/// The chain of a test.
type Asked<'x, 'c, 'r> = &'x Bundles<'c, 'c, 'r, 'static>;

fn own(
    alloc: Global,
    chain: Asked<'_, '_, '_>,
    row: &Row,
    args: &Args<'_>,
    errors: &mut Vec<FluentError>,
) -> Result<String, AllocError> {
    match row.1 {
        None => chain.format_value_owned(alloc, row.0, Some(args), errors),
        Some(name) => chain.format_attribute_owned(alloc, row.0, name, Some(args), errors),
    }
}

/// That a text is given as a row says.
fn owns(
    rt: &impl Abort,
    alloc: Global,
    chain: Asked<'_, '_, '_>,
    row: &Row,
    args: &Args<'_>,
) -> Result<(), AllocError> {
    let mut errors = Vec::new(alloc);
    let text = own(alloc, chain, row, args, &mut errors)?;
    check_same(rt, text.as_str(), row.2);
    are(rt, alloc, errors.as_slice(), row.3)
}

fn write(
    chain: Asked<'_, '_, '_>,
    row: &Row,
    args: &Args<'_>,
    w: &mut Counting<Vec<u8>>,
    errors: &mut Vec<FluentError>,
) -> Result<(), WriteFault> {
    match row.1 {
        None => chain.write_value(w, row.0, Some(args), errors),
        Some(name) => chain.write_attribute(w, row.0, name, Some(args), errors),
    }
}

/// Whether a call came to its end, where no allocation fails.
fn is_whole(answer: Result<(), WriteFault>) -> Result<bool, AllocError> {
    match answer {
        Ok(()) => Ok(true),
        Err(WriteFault::Memory) => Err(AllocError),
        Err(_) => Ok(false),
    }
}

/// That it is written so, to a writer that needs no more memory.
fn writes(
    rt: &impl Abort,
    alloc: Global,
    chain: Asked<'_, '_, '_>,
    row: &Row,
    args: &Args<'_>,
) -> Result<(), AllocError> {
    let mut errors = Vec::new(alloc);
    let mut w = Counting::new(Vec::with_capacity(alloc, 50)?);
    let is_whole = is_whole(write(chain, row, args, &mut w, &mut errors))?;
    let is_taken = w.into_inner().as_slice() == row.2.as_bytes();
    check(rt, is_whole && is_taken, row.2);
    are(rt, alloc, errors.as_slice(), row.3)
}

fn gives(
    rt: &impl Abort,
    alloc: Global,
    chain: Asked<'_, '_, '_>,
    rows: &[Row],
    args: &Args<'_>,
) -> Result<(), AllocError> {
    for row in rows {
        owns(rt, alloc, chain, row, args)?;
        writes(rt, alloc, chain, row, args)?;
    }
    Ok(())
}

/// Run with each allocation failing in turn.
#[test]
fn a_chain_gives_and_writes_what_its_bundles_have(rt: HostRuntime) -> Result<(), Fail> {
    let alloc = rt.alloc();
    let resources = two(alloc)?;
    let bundles = list_of(alloc, &resources)?;
    let chain = Chain::of(bundles.as_slice());
    gives(&rt, alloc, &chain, BOTH, &arguments(alloc, &[])?)?;
    Ok(gives(&rt, alloc, &chain, FIVE, &arguments(alloc, &[("n", "5")])?)?)
}
