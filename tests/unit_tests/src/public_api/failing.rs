//! Objects of an application that answer each call by want of memory: so does the formatting call that asked them, and
//! what was written and added till then stands. One that isn't asked refuses nothing.
use crate::check::check;
use crate::public_api::common::{read, value_of};
use crate::public_api::given::are;
use fluent_bundle::ast::Pattern;
use fluent_bundle::{
    Call, Counting, EnglishPlurals, FluentArgs, FluentBundle, FluentError, FluentResource,
    FluentValue, WriteFault,
};
use std::alloc::{AllocError, Global};
use std::borrow::CowStr;
use std::process::Abort;
use std::test::Fail;
use test_contracts::failing::Failing;

type Bundle<'r, 's> = FluentBundle<'r, 's, EnglishPlurals, Failing, Failing, Failing, Failing>;

/// Which of them a bundle has besides the function `F` and the value `$x`.
#[derive(Clone, Copy)]
enum Has {
    Neither,
    Formatter,
    Transform,
}

/// What comes to its end: neither call, writing alone, or both.
#[derive(Clone, Copy, PartialEq, Eq)]
enum Ends {
    Neither,
    Writing,
    Both,
}

/// A source, whose first entry is asked for; what is written of it, the errors' lines, and what comes to its end.
struct Row(&'static str, Has, &'static str, &'static str, Ends);

const LOST: &str = "Resolver error: Unknown variable: $y\n";

const ROWS: &[Row] = &[
    // a function that is shown, that is an argument, that is a selector, that stands in a term
    Row(
        "m = a { $y } b { F() } c",
        Has::Neither,
        "a \u{2068}{$y}\u{2069} b \u{2068}",
        LOST,
        Ends::Neither,
    ),
    Row(
        "m = a { F($y, F()) } b",
        Has::Neither,
        "a \u{2068}",
        LOST,
        Ends::Neither,
    ),
    Row(
        "m = a { F($y) ->\n   *[o] b\n }",
        Has::Neither,
        "a \u{2068}",
        LOST,
        Ends::Neither,
    ),
    Row(
        "m = { $y } { -t } b\n-t = c { F() } d",
        Has::Neither,
        "\u{2068}{$y}\u{2069} c \u{2068}",
        LOST,
        Ends::Neither,
    ),
    // a value that is shown, that is an argument; one that is a selector is borrowed, and isn't asked for a copy
    Row(
        "m = a { $x } b",
        Has::Neither,
        "a \u{2068}",
        "",
        Ends::Neither,
    ),
    Row(
        "m = a { NUMBER($y, $x) } c",
        Has::Neither,
        "a \u{2068}",
        LOST,
        Ends::Neither,
    ),
    Row(
        "m = a { $x ->\n   *[o] b\n } c",
        Has::Neither,
        "a \u{2068}b\u{2069} c",
        "",
        Ends::Both,
    ),
    // a transform, before and after a placeable
    Row("m = a { $y } b", Has::Transform, "", "", Ends::Neither),
    Row(
        "m = { $y } b",
        Has::Transform,
        "\u{2068}{$y}\u{2069}",
        LOST,
        Ends::Neither,
    ),
    Row("m = b", Has::Transform, "", "", Ends::Neither),
    // a formatter, of a number; what is lost is no value, and the whole text is shown when it is written already
    Row(
        "m = a { $y } b { 1 } c",
        Has::Formatter,
        "a \u{2068}{$y}\u{2069} b \u{2068}",
        LOST,
        Ends::Neither,
    ),
    Row(
        "m = a { $y }",
        Has::Formatter,
        "a \u{2068}{$y}\u{2069}",
        LOST,
        Ends::Writing,
    ),
];

fn set(bundle: &mut Bundle<'_, '_>, has: Has) {
    match has {
        Has::Neither => {}
        Has::Formatter => bundle.set_formatter(Some(Failing)),
        Has::Transform => bundle.set_transform(Some(Failing)),
    }
}

fn bundle_of<'r, 's>(
    alloc: Global,
    has: Has,
    resource: &'r FluentResource<'s>,
) -> Result<Bundle<'r, 's>, AllocError> {
    let mut bundle: Bundle<'r, 's> = FluentBundle::new_default(alloc)?;
    bundle.make(Call::AddResource(resource))?;
    bundle.make(Call::AddFunction("F", Failing))?;
    set(&mut bundle, has);
    Ok(bundle)
}

/// The value `$x`.
fn arguments(alloc: Global) -> Result<FluentArgs<'static, Failing>, AllocError> {
    let mut args = FluentArgs::new(alloc);
    args.set(CowStr::Borrowed("x"), FluentValue::Custom(Failing))?;
    Ok(args)
}

fn write<'s>(
    bundle: &Bundle<'_, 's>,
    pattern: &Pattern<'s>,
    args: &FluentArgs<'_, Failing>,
    w: &mut Counting<Vec<u8>>,
    errors: &mut Vec<FluentError>,
) -> Result<(), WriteFault> {
    bundle.write_pattern(w, pattern, Some(args), errors)
}

fn format<'s>(
    bundle: &Bundle<'_, 's>,
    pattern: &Pattern<'s>,
    args: &FluentArgs<'_, Failing>,
    errors: &mut Vec<FluentError>,
) -> Result<CowStr<'s>, AllocError> {
    bundle.format_pattern(pattern, Some(args), errors)
}

/// Whether a call came to its end, or answered want of memory, as it should.
fn is_answered(answer: Result<(), WriteFault>, ends: Ends) -> bool {
    match answer {
        Ok(()) => ends != Ends::Neither,
        Err(WriteFault::Memory) => ends == Ends::Neither,
        Err(_) => false,
    }
}

/// Whether a writer without a fault took this text.
fn has_taken(w: Counting<Vec<u8>>, text: &str) -> bool {
    let has_no_fault = w.failed() == 0 && w.empty() == 0;
    has_no_fault && w.into_inner().as_slice() == text.as_bytes()
}

/// That a pattern is written so.
fn writes<'s>(
    rt: &impl Abort,
    alloc: Global,
    bundle: &Bundle<'_, 's>,
    pattern: &Pattern<'s>,
    args: &FluentArgs<'_, Failing>,
    row: &Row,
) -> Result<(), AllocError> {
    let mut errors = Vec::new(alloc);
    let mut w = Counting::new(Vec::new(alloc));
    let answer = write(bundle, pattern, args, &mut w, &mut errors);
    check(rt, is_answered(answer, row.4), row.0);
    check(rt, has_taken(w, row.2), row.0);
    are(rt, alloc, errors.as_slice(), row.3)
}

/// The same where it is formatted.
fn formats<'s>(
    rt: &impl Abort,
    alloc: Global,
    bundle: &Bundle<'_, 's>,
    pattern: &Pattern<'s>,
    args: &FluentArgs<'_, Failing>,
    row: &Row,
) -> Result<(), AllocError> {
    let mut errors = Vec::new(alloc);
    let formatted = format(bundle, pattern, args, &mut errors);
    check(rt, formatted.is_ok() == (row.4 == Ends::Both), row.0);
    are(rt, alloc, errors.as_slice(), row.3)
}

fn is_refused(rt: &impl Abort, alloc: Global, row: &Row) -> Result<(), Fail> {
    let resource = read(alloc, row.0)?;
    let bundle = bundle_of(alloc, row.1, &resource)?;
    let args = arguments(alloc)?;
    let pattern = value_of(&resource)?;
    writes(rt, alloc, &bundle, pattern, &args, row)?;
    Ok(formats(rt, alloc, &bundle, pattern, &args, row)?)
}

#[test]
fn want_of_memory_that_an_object_answers_is_answered(rt: HostRuntime) -> Result<(), Fail> {
    for row in ROWS {
        is_refused(&rt, rt.alloc(), row)?;
    }
    Ok(())
}
