//! How many samples were asked for.

use std::fmt;

/// Samples in the right category, in a wrong one, and left out.
#[derive(Clone, Copy, Default)]
pub struct Tally {
    right: usize,
    wrong: usize,
    compact: usize,
}

impl Tally {
    pub fn right(&mut self) {
        self.right = self.right.saturating_add(1);
    }

    pub fn wrong(&mut self) {
        self.wrong = self.wrong.saturating_add(1);
    }

    pub fn compact(&mut self) {
        self.compact = self.compact.saturating_add(1);
    }
}

impl fmt::Display for Tally {
    fn fmt<W: fmt::Write>(&self, f: &mut fmt::Formatter<W>) -> fmt::Result {
        write!(
            f,
            "{} samples right, {} wrong, {} left out",
            self.right, self.wrong, self.compact
        )
    }
}
