//! Findings of bundles, each kind once.
use crate::check::{check, check_same};
use crate::lint::common::{bundle_of_all, lines, read};
use fluent_bundle::FluentResource;
use fluent_bundle::ast::Identifier;
use fluent_lint::{Definition, Place, Twice, defined_twice, lint, position, unreadable, variables};
use std::alloc::{AllocError, Global};
use std::test::Fail;

/// Each message here has a finding, but for those after `fine`.
const SOURCE: &str = "
no-message = { nothing }
no-attribute = { only.text }
no-value = { only }
no-term = { -nothing }
no-term-attribute = { -brand.text ->
   *[other] a
 }
no-function = { NOTHING(1) }
leads = { no-message }
round = { round-two }
round-two = { $n ->
    [one] a
   *[other] { round-two.title }
 }
    .title = { round }
large = { $a }{ $a }{ fine }
fine = { $a } { only.title } { -brand(case: 1) }
only =
    .title = { $b }
-brand = { $case }
";

const FINDINGS: &str = "\
no message 'nothing' (in 'no-message')
no attribute 'only.text' (in 'no-attribute')
no value of message 'only' (in 'no-value')
no term '-nothing' (in 'no-term')
no attribute '-brand.text' (in 'no-term-attribute')
no function 'NOTHING' (in 'no-function')
'leads' refers to 'no-message', where something is wrong
'round' refers to 'round-two', where something is wrong
'round-two' refers to 'round-two.title', where something is wrong
'round-two.title' refers to 'round', where something is wrong
'large' can open 8 placeables, and no more than 6 are opened
'round' refers to 'round-two', which leads back to it
";

/// Run with each allocation failing in turn.
#[test]
fn each_kind_is_found(rt: HostRuntime) -> Result<(), Fail> {
    let resources = [read(rt.alloc(), SOURCE)?];
    let bundle = bundle_of_all(rt.alloc(), 6, &resources)?;
    let findings = lint(rt.alloc(), &bundle, &resources)?;
    let text = lines(rt.alloc(), &findings)?;
    check_same(&rt, text.as_str(), FINDINGS);
    Ok(())
}

const HANDED_IN: &str = "a = { b } { $x }
b = { $y }
unreadable
-b = again
";

const LEFT_OUT: &str = "c = { $z }
a = again
d = { b } { $y }
";

const ELSEWHERE: &str = "\
'a' refers to 'b', which was not looked at
'd' refers to 'b', which was not looked at
";

fn two<'s>(alloc: Global) -> Result<[FluentResource<'s>; 2], AllocError> {
    Ok([read(alloc, HANDED_IN)?, read(alloc, LEFT_OUT)?])
}

/// Run with each allocation failing in turn.
#[test]
fn what_no_resource_has_is_elsewhere(rt: HostRuntime) -> Result<(), Fail> {
    let resources = two(rt.alloc())?;
    let bundle = bundle_of_all(rt.alloc(), 100, &resources)?;
    let some = [read(rt.alloc(), LEFT_OUT)?];
    let findings = lint(rt.alloc(), &bundle, &some)?;
    let text = lines(rt.alloc(), &findings)?;
    check_same(&rt, text.as_str(), ELSEWHERE);
    let whole = lint(rt.alloc(), &bundle, &resources)?;
    check(&rt, whole.is_empty(), "none where all are handed in");
    Ok(())
}

fn add_all(out: &mut String, names: &[&str]) -> Result<(), AllocError> {
    for name in names {
        write!(out, "{name};")?;
    }
    Ok(())
}

/// Run with each allocation failing in turn.
#[test]
fn variables_are_those_of_messages_too(rt: HostRuntime) -> Result<(), Fail> {
    let resources = two(rt.alloc())?;
    let bundle = bundle_of_all(rt.alloc(), 100, &resources)?;
    let place = Place::Message(Identifier { name: "a" }, None);
    let names = variables(rt.alloc(), &bundle, &place)?;
    let mut text = String::new(rt.alloc());
    add_all(&mut text, &names)?;
    check_same(&rt, text.as_str(), "x;y;");
    Ok(())
}

fn add_where(out: &mut String, at: Definition) -> Result<(), AllocError> {
    write!(out, " {}.{}", at.resource, at.entry)
}

fn twice_in(alloc: Global, all: &[Twice<'_>]) -> Result<String, AllocError> {
    let mut out = String::new(alloc);
    for twice in all {
        write!(out, "{}", twice.id)?;
        add_where(&mut out, twice.first)?;
        add_where(&mut out, twice.again)?;
        write!(out, "\n")?;
    }
    Ok(out)
}

/// Run with each allocation failing in turn.
#[test]
fn sources_are_looked_at(rt: HostRuntime) -> Result<(), Fail> {
    let resources = two(rt.alloc())?;
    let ranges = unreadable(rt.alloc(), &resources[0])?;
    let start = ranges.first().map_or(0, |range| range.start);
    let line = position(HANDED_IN, start);
    check(&rt, ranges.len() == 1, "one part");
    check(&rt, line.line == 3 && line.column == 1, "the third line");
    let all = defined_twice(rt.alloc(), &resources)?;
    let text = twice_in(rt.alloc(), &all)?;
    check_same(&rt, text.as_str(), "b 0.1 0.3\na 0.0 1.1\n");
    Ok(())
}
