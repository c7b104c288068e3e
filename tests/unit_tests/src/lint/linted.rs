//! What is told of sources before their messages are formatted, also where an allocation fails.
use crate::check::{check, check_same};
use crate::lint::common::{Bundle, bundle_of_all, lines, read};
use fluent_bundle::Call;
use fluent_bundle::ast::Identifier;
use fluent_lint::{Place, lint_places, places_of, position, variables_of};
use std::alloc::{AllocError, Global};
use std::slice;
use std::test::Fail;

/// What is reported of so many of a source's places, with a limit on placeables.
fn reported(alloc: Global, source: &str, count: usize, limit: u32) -> Result<String, AllocError> {
    let resource = read(alloc, source)?;
    let bundle = bundle_of_all(alloc, 100, slice::from_ref(&resource))?;
    let places = places_of(alloc, resource.entries().as_slice())?;
    let first = places.as_slice().get(..count).unwrap_or(places.as_slice());
    let findings = lint_places(alloc, &bundle, first, limit)?;
    lines(alloc, &findings)
}

// ---- each finding by itself

/// A source, and what is found in it where more than two placeables are many.
const ROWS: &[(&str, &str)] = &[
    ("a = { b.x }{ $n }\nb =\n    .x = X", ""),
    ("a = { b }", "no message 'b' (in 'a')\n"),
    ("a = { b.x }\nb = B", "no attribute 'b.x' (in 'a')\n"),
    (
        "a = { b }\nb =\n    .x = X",
        "no value of message 'b' (in 'a')\n",
    ),
    ("a =\n    .x = { -t }", "no term '-t' (in 'a.x')\n"),
    (
        "a = { -t.x ->\n   *[o] O\n }\n-t = T",
        "no attribute '-t.x' (in 'a')\n",
    ),
    ("-t = { FUN() }", "no function 'FUN' (in '-t')\n"),
    ("a = { b }\nb = { a }", TWO_ON_A_CYCLE),
    ("a = { b }\nb = { b }", ONE_ON_A_CYCLE),
    (
        "a = { 1 }{ 2 }\nb = { a }{ 3 }",
        "'b' can open 4 placeables, and no more than 2 are opened\n",
    ),
];

const TWO_ON_A_CYCLE: &str = "\
'a' refers to 'b', where something is wrong
'b' refers to 'a', where something is wrong
'a' refers to 'b', which leads back to it
";

const ONE_ON_A_CYCLE: &str = "\
'a' refers to 'b', where something is wrong
'b' refers to 'b', where something is wrong
'b' refers to itself
";

#[test]
fn each_cause_is_found(rt: HostRuntime) -> Result<(), Fail> {
    for (source, wanted) in ROWS {
        let lines = reported(rt.alloc(), *source, 9, 2)?;
        check_same(&rt, lines.as_str(), *wanted);
    }
    Ok(())
}

#[test]
fn what_was_not_looked_at_is_elsewhere(rt: HostRuntime) -> Result<(), Fail> {
    let lines = reported(rt.alloc(), "a = { b }\nb = B", 1, 2)?;
    check_same(
        &rt,
        lines.as_str(),
        "'a' refers to 'b', which was not looked at\n",
    );
    Ok(())
}

// ---- together

/// Findings of many kinds, and what is clean.
const SOURCE: &str = "top = { mid } { $n ->
    [one] { -term }
   *[other] { NUMBER($n) }
 }
mid = { last } { -brand(x: 1) }
last = text { $v }
-brand = Fire { $x }
-term = t { last }
    .case = { last }
cycle-a = { cycle-b }
cycle-b = { cycle-c }
cycle-c = { cycle-a } { nothing }
above = { cycle-a } { last.gone } { FUN(1) }
only =
    .title = { above }
asks = { only }
large = { top } { top } { top }
last = again
";

/// What is found in it with a limit of 20, and which variables its first message asks for.
const FINDINGS: &str = "'cycle-a' refers to 'cycle-b', where something is wrong
'cycle-b' refers to 'cycle-c', where something is wrong
'cycle-c' refers to 'cycle-a', where something is wrong
no message 'nothing' (in 'cycle-c')
'above' refers to 'cycle-a', where something is wrong
no attribute 'last.gone' (in 'above')
no function 'FUN' (in 'above')
'only.title' refers to 'above', where something is wrong
no value of message 'only' (in 'asks')
'large' can open 30 placeables, and no more than 20 are opened
'cycle-a' refers to 'cycle-b', which leads back to it
top asks n v
";

/// Adds which variables the message `top` asks for.
fn write_asked<'r, 's: 'r>(
    alloc: Global,
    bundle: &Bundle<'r, 's>,
    lines: &mut String,
) -> Result<(), AllocError> {
    let top = Place::Message(Identifier { name: "top" }, None);
    lines.push_str("top asks")?;
    for name in &variables_of(alloc, bundle, &top)? {
        write!(lines, " {name}")?;
    }
    lines.push('\n')?;
    Ok(())
}

fn linted(alloc: Global, source: &str) -> Result<String, AllocError> {
    let resource = read(alloc, source)?;
    let mut bundle = bundle_of_all(alloc, 100, slice::from_ref(&resource))?;
    bundle.make(Call::AddBuiltins)?;
    let places = places_of(alloc, resource.entries().as_slice())?;
    let findings = lint_places(alloc, &bundle, places.as_slice(), 20)?;
    let mut lines = lines(alloc, &findings)?;
    write_asked(alloc, &bundle, &mut lines)?;
    Ok(lines)
}

/// Run with each allocation failing in turn.
#[test]
fn findings_of_a_source(rt: HostRuntime) -> Result<(), Fail> {
    if let Ok(lines) = linted(rt.alloc(), SOURCE) {
        check_same(&rt, lines.as_str(), FINDINGS);
    }
    Ok(())
}

// ---- places in a text

/// A byte's offset in `a\nżb`, with its line and its column.
const POSITIONS: &[(usize, usize, usize)] = &[
    (0, 1, 1),
    (1, 1, 2),
    (2, 2, 1),
    (4, 2, 2),
    (5, 2, 3),
    (99, 2, 3),
];

#[test]
fn bytes_have_lines_and_columns(rt: HostRuntime) {
    for (offset, line, column) in POSITIONS {
        let found = position("a\nżb", *offset);
        check(&rt, found.line == *line && found.column == *column, "ż");
    }
}
