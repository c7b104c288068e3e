//! How large an element of a pattern is, since the time and the memory that a source takes go with it.
use fluent_syntax::ast::PatternElement;
use std::mem::size_of;

/// An element is no larger than one of the Rust crate's, of 104 bytes.
#[test]
fn elements_are_small(rt: HostRuntime) {
    let size = size_of::<PatternElement<'static>>();
    assert!(rt; size <= 104, "{size}");
}
