//! Placeables and argument lists stand in one another up to a depth of 100, counted together.
use crate::check::{Row, check_rows};
use crate::syntax::shown::is_tree;
use std::alloc::{AllocError, Global};

/// What stands at the start, what opens, what stands inside, what closes, what stands after.
type Nest = &'static [&'static str];

/// Puts a text that opens and closes so many times.
fn put_nest(out: &mut String, nest: &[&str], times: usize) -> Result<(), AllocError> {
    for (place, part) in nest.iter().enumerate() {
        let count = if place % 2 == 1 { times } else { 1 };
        repeat(out, *part, count)?;
    }
    Ok(())
}

fn repeat(out: &mut String, part: &str, count: usize) -> Result<(), AllocError> {
    for _ in 0..count {
        out.push_str(part)?;
    }
    Ok(())
}

fn nested(alloc: Global, nest: &[&str], times: usize) -> Result<String, AllocError> {
    let mut out = String::new(alloc);
    put_nest(&mut out, nest, times)?;
    Ok(out)
}

/// A source, and its tree where it is not one Junk: each a nest, and how many times it opens and closes.
type Nested = (Nest, usize, Option<(Nest, usize)>);

/// Sources of depth 100, with their trees.
const DEEPEST: &[Nested] = &[
    (
        &["d = ", "{", "\"x\"", "}", ""],
        100,
        Some((&["d=[", "{", "\"x\"", "}", "]"], 100)),
    ),
    (
        &["d = { ", "F(", "", ")", " }"],
        99,
        Some((&["d=[{F(", "F(", "", "),", ")}]"], 98)),
    ),
    (
        &["d = { ", "-t(", "$x", ")", " }"],
        99,
        Some((&["d=[{-t(", "-t(", "$x,", "),", ")}]"], 98)),
    ),
    (
        &["d = ", "{F(", "$x", ")}", ""],
        50,
        Some((&["d=[{F(", "{F(", "$x,", ")},", ")}]"], 49)),
    ),
    (
        &["d = ", "{ $b ->\n *[c] ", "x", "\n }", ""],
        100,
        Some((&["d=[", "{$b->*c[", "(x)", "]}", "]"], 100)),
    ),
];

/// Sources that go deeper by one.
const DEEPER: &[Nested] = &[
    (&["d = ", "{", "\"x\"", "}", ""], 101, None),
    (&["d = { ", "F(", "", ")", " }"], 100, None),
    (&["d = { ", "-t(", "$x", ")", " }"], 100, None),
    (&["d = ", "{F(", "{$x}", ")}", ""], 50, None),
    (&["d = {", "F({", "G()", "})", "}"], 50, None),
    (&["d = ", "{ $b ->\n *[c] ", "x", "\n }", ""], 101, None),
];

/// Sources that open and never close, which are read in a time that grows with their length alone.
const UNCLOSED: &[Nested] = &[
    (&["d = ", "{", "", "", ""], 1000, None),
    (&["d = ", "{ F(", "", "", ""], 1000, None),
    (&["d = ", "{ -t(", "", "", ""], 1000, None),
    (&["d = ", "{ \"x", "", "", ""], 1000, None),
    (&["d = ", "{ $b ->\n *[c] ", "", "", ""], 1000, None),
];

const TABLES: &[&[Nested]] = &[DEEPEST, DEEPER, UNCLOSED];

/// The tree of a source.
fn tree(alloc: Global, row: &Nested, source: &str) -> Result<String, AllocError> {
    match &row.2 {
        Some((tree, times)) => nested(alloc, *tree, *times),
        None => format!(in alloc; "!({source}) 0..{}", source.len()),
    }
}

fn has_tree(alloc: Global, source: &str, tree: &Result<String, AllocError>) -> bool {
    match tree {
        Ok(tree) => is_tree(alloc, source, tree.as_str()),
        Err(AllocError) => false,
    }
}

fn is_read(alloc: Global, row: &Nested, source: &Result<String, AllocError>) -> bool {
    match source {
        Ok(source) => has_tree(alloc, source.as_str(), &tree(alloc, row, source.as_str())),
        Err(AllocError) => false,
    }
}

impl Row for Nested {
    fn holds(&self, alloc: Global) -> bool {
        is_read(alloc, self, &nested(alloc, self.0, self.1))
    }
}

#[test]
fn a_hundred_are_read_and_one_more_is_junk(rt: HostRuntime) {
    for rows in TABLES {
        check_rows(&rt, rt.alloc(), *rows);
    }
}
