//! What comes of a fixture.
use std::alloc::{AllocError, Global};
use std::fmt;

/// How many calls a fixture has, in how many ways they and its resources were tried, and how many of its lines are
/// wrong.
#[derive(Clone, Copy, Default, Drop)]
pub struct Counts {
    pub calls: usize,
    pub ways: usize,
    pub wrong: usize,
}

impl Counts {
    /// Both together.
    pub fn with(self, other: Counts) -> Counts {
        Counts {
            calls: self.calls.saturating_add(other.calls),
            ways: self.ways.saturating_add(other.ways),
            wrong: self.wrong.saturating_add(other.wrong),
        }
    }
}

impl fmt::Display for Counts {
    fn fmt<W: fmt::Write>(&self, f: &mut fmt::Formatter<W>) -> fmt::Result {
        let (calls, ways, wrong) = (self.calls, self.ways, self.wrong);
        write!(f, "{calls} calls, {ways} ways, {wrong} wrong")
    }
}

/// A report on a fixture: its counts, and a text for each line that is wrong.
#[derive(Drop)]
pub struct Report<'n> {
    name: &'n str,
    pub counts: Counts,
    pub text: String,
    line: usize,
    is_wrong: bool,
}

impl<'n> Report<'n> {
    /// One that says nothing yet.
    pub fn new(alloc: Global, name: &'n str) -> Report<'n> {
        Report {
            name,
            counts: Counts::default(),
            text: String::new(alloc),
            line: 0,
            is_wrong: false,
        }
    }

    /// Goes on to a line.
    pub fn at(&mut self, line: usize) {
        self.line = line;
        self.is_wrong = false;
    }

    /// Counts a call.
    pub fn call(&mut self) {
        self.counts.calls = self.counts.calls.saturating_add(1);
    }

    /// Counts a way. Whether it is the first of its line that is wrong.
    fn is_news(&mut self, is_right: bool) -> bool {
        self.counts.ways = self.counts.ways.saturating_add(1);
        if is_right || self.is_wrong {
            return false;
        }
        self.is_wrong = true;
        self.counts.wrong = self.counts.wrong.saturating_add(1);
        true
    }

    /// Says what is wrong where something doesn't hold.
    pub fn holds(&mut self, is_right: bool, wrong: &str) -> Result<(), AllocError> {
        if self.is_news(is_right) {
            let (name, line) = (self.name, self.line);
            write!(self.text, "{name}:{line}: {wrong}\n")?;
        }
        Ok(())
    }

    /// The same of something after so many bytes.
    pub fn holds_at(
        &mut self,
        is_right: bool,
        wrong: &str,
        bytes: usize,
    ) -> Result<(), AllocError> {
        if self.is_news(is_right) {
            let (name, line) = (self.name, self.line);
            write!(self.text, "{name}:{line}: {wrong} ({bytes} bytes)\n")?;
        }
        Ok(())
    }

    /// Says what is wanted and what came where that isn't the same.
    pub fn same(&mut self, wanted: &str, got: &str, way: &str) -> Result<(), AllocError> {
        if self.is_news(wanted == got) {
            let (name, line) = (self.name, self.line);
            write!(
                self.text,
                "{name}:{line}: {way}\n  wanted: {wanted:?}\n  got:    {got:?}\n"
            )?;
        }
        Ok(())
    }
}
