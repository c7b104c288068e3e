//! What a test asserts.
use std::alloc::{AllocError, Global};
use std::fmt::Debug;
use std::process::Abort;

/// Asserts that something holds.
pub fn check(rt: &impl Abort, holds: bool, what: &str) {
    assert!(rt; holds, "{what}");
}

/// The same at a place of a list.
pub fn check_at(rt: &impl Abort, holds: bool, what: &str, at: usize) {
    assert!(rt; holds, "{what} at {at}");
}

/// Asserts that a text is found.
pub fn check_same(rt: &impl Abort, found: &str, wanted: &str) {
    assert!(rt; found == wanted, "{wanted}: {found}");
}

/// A row of a table.
pub trait Row: Debug {
    /// Whether it is as the row says.
    fn holds(&self, alloc: Global) -> bool;
}

/// Asserts that each row of a table holds.
pub fn check_rows<R: Row>(rt: &impl Abort, alloc: Global, rows: &[R]) {
    for row in rows {
        assert!(rt; row.holds(alloc), "at {row:?}");
    }
}

/// Whether two texts are the same.
pub fn is_same(found: &str, wanted: &str) -> bool {
    found == wanted
}

/// Whether a text was made, and is this one.
pub fn is_text(made: &Result<String, AllocError>, wanted: &str) -> bool {
    match made {
        Ok(made) => is_same(made.as_str(), wanted),
        Err(AllocError) => false,
    }
}
