//! Patterns of a source that are linked: the numbers of what they refer to, in order, and their classes.
use crate::check::{check, check_at};
use crate::internals::slots::has_number;
use fluent_references::{Classes, Linked, Slots};
use fluent_syntax::ast::{Entry, Pattern};
use fluent_syntax::parse_runtime;
use std::alloc::{AllocError, Global};
use std::process::Abort;
use std::test::Fail;

/// A pattern that refers to an id as a selector, an argument, in variants and twice; the same again; patterns that refer
/// to nothing; and others.
const SOURCE: &str = "p = { F(a, { b }, n: 1) }x{ -t(c, x: \"v\") }{ G(-u) ->
    [k] { d }
   *[o] { a }
}{ e.f }{ $v }
q = { F(a, { b }, n: 1) }x{ -t(c, x: \"v\") }{ G(-u) ->
    [k] { d }
   *[o] { a }
}{ e.f }{ $v }
r = x
s = x{ $a }
t = { g }
u = { a }
v = { g }
";

/// The class of each pattern, where it has one, and the numbers of what it refers to. Those of the first are F, a, b, t,
/// c, G, u, d, a again, and e.
const LINKED: &[(Option<u32>, &[u32])] = &[
    (Some(0), &[0, 1, 2, 3, 4, 5, 6, 7, 1, 8]),
    (Some(0), &[0, 1, 2, 3, 4, 5, 6, 7, 1, 8]),
    (None, &[]),
    (None, &[]),
    (Some(1), &[9]),
    (Some(2), &[1]),
    (Some(1), &[9]),
];

/// The entries of a source without Junk.
fn read(alloc: Global, source: &'static str) -> Result<Vec<Entry<'static>>, Fail> {
    match parse_runtime(alloc, source) {
        Ok(resource) => Ok(resource.body),
        Err(_) => Err(AllocError.into()),
    }
}

fn value_of<'r>(entry: &'r Entry<'static>) -> Option<&'r Pattern<'static>> {
    match entry {
        Entry::Message(message) => message.value.as_ref(),
        _ => None,
    }
}

/// That a pattern has this class, or none, and that its links are these numbers.
fn is_linked(linked: &Linked, class: Option<u32>, numbers: &[u32]) -> bool {
    let mut cursor = linked.cursor();
    for number in numbers {
        if cursor.first() != Some(*number) {
            return false;
        }
        cursor = cursor.after_one();
    }
    cursor.first().is_none() && linked.class() == class
}

/// Links a pattern, again where an allocation fails.
fn link<'r>(
    alloc: Global,
    slots: &mut Slots<'static, u8>,
    classes: &mut Classes<'r, 'static>,
    pattern: &'r Pattern<'static>,
) -> Result<Linked, AllocError> {
    match Linked::link(alloc, slots, classes, pattern) {
        Err(AllocError) => Linked::link(alloc, slots, classes, pattern),
        linked => linked,
    }
}

/// Whether the value of a message is linked so, after what was linked before.
fn links<'r>(
    alloc: Global,
    slots: &mut Slots<'static, u8>,
    classes: &mut Classes<'r, 'static>,
    entry: &'r Entry<'static>,
    row: &(Option<u32>, &[u32]),
) -> Result<bool, AllocError> {
    match value_of(entry) {
        Some(pattern) => {
            let linked = link(alloc, slots, classes, pattern)?;
            Ok(is_linked(&linked, row.0, row.1))
        }
        None => Ok(false),
    }
}

fn are_linked(
    rt: &impl Abort,
    alloc: Global,
    slots: &mut Slots<'static, u8>,
    entries: &[Entry<'static>],
) -> Result<(), AllocError> {
    let mut classes = Classes::new(alloc);
    check(rt, entries.len() == LINKED.len(), "how many");
    for (at, (entry, row)) in entries.iter().zip(LINKED).enumerate() {
        let is_so = links(alloc, slots, &mut classes, entry, row)?;
        check_at(rt, is_so, "linked", at);
    }
    Ok(())
}

/// Run with each allocation failing in turn: what is linked again gets the numbers that it would have got.
#[test]
fn references_are_numbered_in_order(rt: HostRuntime) -> Result<(), Fail> {
    let entries = read(rt.alloc(), SOURCE)?;
    let mut slots = Slots::new(rt.alloc());
    are_linked(&rt, rt.alloc(), &mut slots, &entries)?;
    check(&rt, has_number(&mut slots, "g", 9), "the last");
    check(&rt, has_number(&mut slots, "v", 10), "no variable has one");
    Ok(())
}

// ---- classes

/// Patterns that differ in one part each, and some again.
const CONTENTS: &str = "a = x
b = y
c = { x }
d = { x.y }
e = { \"x\" }
f = { $x }
g = { F(x) }
h = { F(n: 1) }
i = { F(m: 1) }
j = { $v ->\n    [k] x\n   *[l] y\n }
k = { $v ->\n   *[k] x\n    [l] y\n }
l = x
m = { F(m: 1) }
n = { $v ->\n    [k] x\n   *[l] y\n }
";

const CLASSES: &[u32] = &[0, 1, 2, 3, 4, 5, 6, 7, 8, 9, 10, 0, 8, 9];

/// The class of a pattern, asked again where an allocation fails.
fn class_of<'r>(
    classes: &mut Classes<'r, 'static>,
    pattern: &'r Pattern<'static>,
) -> Result<u32, AllocError> {
    match classes.class_of(pattern) {
        Err(AllocError) => classes.class_of(pattern),
        class => class,
    }
}

fn has_class<'r>(
    classes: &mut Classes<'r, 'static>,
    entry: &'r Entry<'static>,
    class: u32,
) -> Result<bool, AllocError> {
    match value_of(entry) {
        Some(pattern) => Ok(class_of(classes, pattern)? == class),
        None => Ok(false),
    }
}

fn have_classes(
    rt: &impl Abort,
    alloc: Global,
    entries: &[Entry<'static>],
) -> Result<(), AllocError> {
    let mut classes = Classes::new(alloc);
    check(rt, entries.len() == CLASSES.len(), "how many");
    for (at, (entry, class)) in entries.iter().zip(CLASSES).enumerate() {
        check_at(rt, has_class(&mut classes, entry, *class)?, "a class", at);
    }
    Ok(())
}

/// Run with each allocation failing in turn: a pattern that was refused gets the class that it would have got.
#[test]
fn classes_are_equal_where_patterns_are(rt: HostRuntime) -> Result<(), Fail> {
    let entries = read(rt.alloc(), CONTENTS)?;
    Ok(have_classes(&rt, rt.alloc(), &entries)?)
}
