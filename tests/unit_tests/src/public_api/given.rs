//! What a pattern gives: a text and errors, by both formatting calls.
use crate::check::{check, check_same};
use crate::public_api::common::{Args, Bundle, lines};
use fluent_bundle::ast::Pattern;
use fluent_bundle::{Counting, FluentError};
use std::alloc::{AllocError, Global};
use std::borrow::CowStr;
use std::process::Abort;

fn written<'s>(
    alloc: Global,
    bundle: &Bundle<'_, 's>,
    pattern: &Pattern<'s>,
    args: Option<&Args<'_>>,
    errors: &mut Vec<FluentError>,
) -> Result<Vec<u8>, AllocError> {
    let mut w = Counting::new(Vec::new(alloc));
    match bundle.write_pattern(&mut w, pattern, args, errors) {
        Ok(()) => Ok(w.into_inner()),
        Err(_) => Err(AllocError),
    }
}

fn formatted<'s>(
    bundle: &Bundle<'_, 's>,
    pattern: &Pattern<'s>,
    args: Option<&Args<'_>>,
    errors: &mut Vec<FluentError>,
) -> Result<CowStr<'s>, AllocError> {
    bundle.format_pattern(pattern, args, errors)
}

/// What a pattern is written as and formatted as, and the lines of its errors.
pub type Wanted<'x> = (&'x str, &'x str, &'x str);

/// That errors are those of these lines.
pub fn are(
    rt: &impl Abort,
    alloc: Global,
    errors: &[FluentError],
    wanted: &str,
) -> Result<(), AllocError> {
    let found = lines(alloc, errors)?;
    check_same(rt, found.as_str(), wanted);
    Ok(())
}

/// That a pattern is written as this text, with these errors.
fn writes<'s>(
    rt: &impl Abort,
    alloc: Global,
    bundle: &Bundle<'_, 's>,
    pattern: &Pattern<'s>,
    args: Option<&Args<'_>>,
    wanted: Wanted<'_>,
) -> Result<(), AllocError> {
    let mut errors = Vec::new(alloc);
    let text = written(alloc, bundle, pattern, args, &mut errors)?;
    check(rt, text.as_slice() == wanted.0.as_bytes(), wanted.0);
    are(rt, alloc, errors.as_slice(), wanted.2)
}

/// That a pattern is formatted as this text, with these errors.
pub fn formats<'s>(
    rt: &impl Abort,
    alloc: Global,
    bundle: &Bundle<'_, 's>,
    pattern: &Pattern<'s>,
    args: Option<&Args<'_>>,
    wanted: (&str, &str),
) -> Result<(), AllocError> {
    let mut errors = Vec::new(alloc);
    let text = formatted(bundle, pattern, args, &mut errors)?;
    check_same(rt, text.as_str(), wanted.0);
    are(rt, alloc, errors.as_slice(), wanted.1)
}

/// Both.
pub fn gives_both<'s>(
    rt: &impl Abort,
    alloc: Global,
    bundle: &Bundle<'_, 's>,
    pattern: &Pattern<'s>,
    args: Option<&Args<'_>>,
    wanted: Wanted<'_>,
) -> Result<(), AllocError> {
    writes(rt, alloc, bundle, pattern, args, wanted)?;
    formats(rt, alloc, bundle, pattern, args, (wanted.1, wanted.2))
}

/// The same text by both, with the errors of these lines.
pub fn gives<'s>(
    rt: &impl Abort,
    alloc: Global,
    bundle: &Bundle<'_, 's>,
    pattern: &Pattern<'s>,
    args: Option<&Args<'_>>,
    wanted: (&str, &str),
) -> Result<(), AllocError> {
    gives_both(
        rt,
        alloc,
        bundle,
        pattern,
        args,
        (wanted.0, wanted.0, wanted.1),
    )
}
