//! Patterns made by hand that stand in no source, and patterns of other sources.
use crate::public_api::common::{Args, Bundle, Setting, arguments, bundle_of, read, value_of};
use crate::public_api::given::{gives, gives_both};
use crate::public_api::trees::{Case, Leaf, Tree, pattern};
use fluent_bundle::FluentResource;
use std::alloc::{AllocError, Global};
use std::process::Abort;
use std::test::Fail;

const SOURCE: &str = "
-t = { $n }
m = mm
foo = x{ foo }
";

// ---- trees

/// A tree, and what it gives where `n` is 9: its text, and the lines of its errors.
type Row = (Tree, &'static str, &'static str);

const NO_DEFAULT: &str = "Resolver error: No default\n";

const TWO_DEFAULTS: &[Case] = &[
    Case::Name("a", "1"),
    Case::Default("b", "2"),
    Case::Default("c", "3"),
];

const ROWS: &[Row] = &[
    // Literals: a number that is none is a text, and a backslash that begins no escape U+FFFD.
    (Tree::Leaf(Leaf::Number("abc")), "abc", ""),
    (Tree::Leaf(Leaf::Number("+5.")), "5.", ""),
    (Tree::Leaf(Leaf::String("\\q")), "\u{FFFD}q", ""),
    (Tree::Leaf(Leaf::String("\\u00")), "\u{FFFD}u00", ""),
    (Tree::Leaf(Leaf::String("\\")), "\u{FFFD}", ""),
    (Tree::Nothing, "", ""),
    // Of two arguments of one name the last stands; one may be more than a literal.
    (
        Tree::Term(&[("n", Leaf::Number("1")), ("n", Leaf::Number("2"))]),
        "2",
        "",
    ),
    (Tree::Term(&[("n", Leaf::Message("m"))]), "mm", ""),
    (
        Tree::Term(&[("n", Leaf::Variable("q"))]),
        "",
        "Resolver error: Unknown variable: $q\n",
    ),
    // Selects without a default, with two, and by a message.
    (
        Tree::Choice(Leaf::Number("7"), &[Case::Number("1", "x")]),
        "",
        NO_DEFAULT,
    ),
    (Tree::Choice(Leaf::Variable("n"), &[]), "", NO_DEFAULT),
    (Tree::Choice(Leaf::String("z"), TWO_DEFAULTS), "2", ""),
    (Tree::Choice(Leaf::String("c"), TWO_DEFAULTS), "3", ""),
    (
        Tree::Choice(
            Leaf::Message("m"),
            &[Case::Name("mm", "a"), Case::Default("o", "b")],
        ),
        "a",
        "",
    ),
];

fn gives_row(
    rt: &impl Abort,
    alloc: Global,
    bundle: &Bundle<'_, '_>,
    args: &Args<'_>,
    row: &Row,
) -> Result<(), AllocError> {
    let made = pattern(alloc, row.0)?;
    gives(rt, alloc, bundle, &made, Some(args), (row.1, row.2))
}

/// Run with each allocation failing in turn.
#[test]
fn trees_of_any_parts_are_resolved(rt: HostRuntime) -> Result<(), Fail> {
    let resource = read(rt.alloc(), SOURCE)?;
    let bundle = bundle_of(rt.alloc(), &[], &resource)?;
    let args = arguments(rt.alloc(), &[("n", "9")])?;
    for row in ROWS {
        gives_row(&rt, rt.alloc(), &bundle, &args, row)?;
    }
    Ok(())
}

/// The formatter is asked about the empty text too.
#[test]
fn an_empty_pattern_is_formatted(rt: HostRuntime) -> Result<(), AllocError> {
    let resource = read(rt.alloc(), SOURCE)?;
    let bundle = bundle_of(rt.alloc(), &[Setting::Brackets], &resource)?;
    let made = pattern(rt.alloc(), Tree::Nothing)?;
    gives_both(&rt, rt.alloc(), &bundle, &made, None, ("", "[]", ""))
}

// ---- other sources

/// Another source, what its first message gives, and the lines of the errors.
const OTHERS: &[(&str, &str, &str)] = &[
    ("m = x{ m }", "xmm", ""),
    (
        "other = x{ foo }",
        "x{foo}",
        "Resolver error: Cyclical dependency detected\n",
    ),
];

fn other_gives<'s>(
    rt: &impl Abort,
    alloc: Global,
    bundle: &Bundle<'_, 's>,
    other: &(&'static str, &str, &str),
) -> Result<(), Fail> {
    let resource: FluentResource<'s> = read(alloc, other.0)?;
    let wanted = (other.1, other.2);
    gives(rt, alloc, bundle, value_of(&resource)?, None, wanted)?;
    Ok(())
}

/// A pattern of another source goes by its content, and not by the id that it has there.
#[test]
fn patterns_of_other_sources_are_written(rt: HostRuntime) -> Result<(), Fail> {
    let resource = read(rt.alloc(), SOURCE)?;
    let bundle = bundle_of(rt.alloc(), &[], &resource)?;
    for other in OTHERS {
        other_gives(&rt, rt.alloc(), &bundle, other)?;
    }
    Ok(())
}
