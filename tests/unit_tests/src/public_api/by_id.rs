//! What a bundle is asked for by id: values and attributes that are there, and what isn't, where an allocation fails too.
use crate::check::{check, check_same};
use crate::public_api::common::{Args, Bundle, arguments, bundle_of, lines, read};
use fluent_bundle::{Counting, FluentError, FluentResource, WriteFault};
use std::alloc::{AllocError, Global};
use std::borrow::CowStr;
use std::process::Abort;
use std::test::Fail;

const SOURCE: &str = "a = { b } and { -t(n: 1) } of { $n }
    .x = { $x }
    .y = Text
    .x = no
b = { a.x }{ a.z }
only =
    .y = { only }
-t = { $n } term
";

/// An id, the name of an attribute or none, the text where `$n` is given as 5, or none, and the lines of its errors.
type Row = (
    &'static str,
    Option<&'static str>,
    Option<&'static str>,
    &'static str,
);

const ROWS: &[Row] = &[
    (
        "a",
        None,
        Some("{$x}{a.z} and \u{2068}1\u{2069} term of \u{2068}5\u{2069}"),
        "Resolver error: Unknown variable: $x
Resolver error: Unknown attribute: a.z
",
    ),
    (
        "a",
        Some("x"),
        Some("{$x}"),
        "Resolver error: Unknown variable: $x\n",
    ),
    ("a", Some("y"), Some("Text"), ""),
    ("a", Some("z"), None, ""),
    ("only", None, None, ""),
    (
        "only",
        Some("y"),
        Some("{only}"),
        "Resolver error: No value: only\n",
    ),
    ("t", None, None, ""),
    ("-t", None, None, ""),
    ("gone", Some("y"), None, ""),
];

fn format(
    bundle: &Bundle<'_, 'static>,
    row: &Row,
    args: &Args<'_>,
    errors: &mut Vec<FluentError>,
) -> Result<Option<CowStr<'static>>, AllocError> {
    match row.1 {
        None => bundle.format_value(row.0, Some(args), errors),
        Some(name) => bundle.format_attribute(row.0, name, Some(args), errors),
    }
}

fn write(
    bundle: &Bundle<'_, 'static>,
    row: &Row,
    args: &Args<'_>,
    w: &mut Counting<Vec<u8>>,
    errors: &mut Vec<FluentError>,
) -> Result<bool, WriteFault> {
    match row.1 {
        None => bundle.write_value(w, row.0, Some(args), errors),
        Some(name) => bundle.write_attribute(w, row.0, name, Some(args), errors),
    }
}

/// Whether a call gave what a row says, where it is to fail for want of memory else.
fn is_given(rt: &impl Abort, given: Result<Option<CowStr<'_>>, AllocError>, row: &Row) -> bool {
    match given {
        Ok(Some(text)) => {
            check(rt, row.2 == Some(text.as_str()), row.0);
            true
        }
        Ok(None) => {
            check(rt, row.2.is_none(), row.0);
            true
        }
        Err(AllocError) => false,
    }
}

/// Whether a call says that it wrote what a row has, or that it isn't there, where it is to fail for want of memory else.
fn is_whole(rt: &impl Abort, answer: Result<bool, WriteFault>, row: &Row) -> bool {
    match answer {
        Ok(is_there) => {
            check(rt, is_there == row.2.is_some(), row.0);
            true
        }
        Err(fault) => {
            check(rt, matches!(fault, WriteFault::Memory), row.0);
            false
        }
    }
}

/// That these are the errors, or a beginning of them where a call failed for want of memory.
fn stand(
    rt: &impl Abort,
    alloc: Global,
    errors: &[FluentError],
    wanted: &str,
    is_whole: bool,
) -> Result<(), AllocError> {
    let found = lines(alloc, errors)?;
    if is_whole {
        check_same(rt, found.as_str(), wanted);
    } else {
        check(rt, wanted.starts_with(found.as_str()), wanted);
    }
    Ok(())
}

/// `false` where an allocation fails, which leaves a beginning of the errors.
fn formats_once(
    rt: &impl Abort,
    alloc: Global,
    bundle: &Bundle<'_, 'static>,
    row: &Row,
    args: &Args<'_>,
) -> Result<bool, AllocError> {
    let mut errors = Vec::new(alloc);
    let is_whole = is_given(rt, format(bundle, row, args, &mut errors), row);
    stand(rt, alloc, errors.as_slice(), row.3, is_whole)?;
    Ok(is_whole)
}

/// The same to a writer that needs no more memory, which has taken a beginning of the text.
fn writes_once(
    rt: &impl Abort,
    alloc: Global,
    bundle: &Bundle<'_, 'static>,
    row: &Row,
    args: &Args<'_>,
) -> Result<bool, AllocError> {
    let mut errors = Vec::new(alloc);
    let mut w = Counting::new(Vec::with_capacity(alloc, 100)?);
    let is_whole = is_whole(rt, write(bundle, row, args, &mut w, &mut errors), row);
    let taken = w.into_inner();
    let text = row.2.unwrap_or("");
    check(rt, text.as_bytes().starts_with(taken.as_slice()), row.0);
    check(rt, !is_whole || taken.len() == text.len(), row.0);
    stand(rt, alloc, errors.as_slice(), row.3, is_whole)?;
    Ok(is_whole)
}

/// That each row is given, a second time where an allocation fails at the first.
fn formats(
    rt: &impl Abort,
    alloc: Global,
    resource: &FluentResource<'static>,
) -> Result<(), AllocError> {
    let bundle = bundle_of(alloc, &[], resource)?;
    let args = arguments(alloc, &[("n", "5")])?;
    for row in ROWS {
        if !formats_once(rt, alloc, &bundle, row, &args)? {
            check(rt, formats_once(rt, alloc, &bundle, row, &args)?, row.0);
        }
    }
    Ok(())
}

/// The same of what is written.
fn writes(
    rt: &impl Abort,
    alloc: Global,
    resource: &FluentResource<'static>,
) -> Result<(), AllocError> {
    let bundle = bundle_of(alloc, &[], resource)?;
    let args = arguments(alloc, &[("n", "5")])?;
    for row in ROWS {
        if !writes_once(rt, alloc, &bundle, row, &args)? {
            check(rt, writes_once(rt, alloc, &bundle, row, &args)?, row.0);
        }
    }
    Ok(())
}

/// Run with each allocation failing in turn.
#[test]
fn what_is_asked_for_by_id_is_given(rt: HostRuntime) -> Result<(), Fail> {
    let resource = read(rt.alloc(), SOURCE)?;
    formats(&rt, rt.alloc(), &resource)?;
    Ok(())
}

/// Run with each allocation failing in turn.
#[test]
fn what_is_asked_for_by_id_is_written(rt: HostRuntime) -> Result<(), Fail> {
    let resource = read(rt.alloc(), SOURCE)?;
    writes(&rt, rt.alloc(), &resource)?;
    Ok(())
}
