//! What a fixture says.
use crate::settings::Settings;
use std::alloc::{AllocError, Global};
use test_contracts::fixtures::Answer;

/// A bundle of a fixture.
#[derive(Clone, Copy, Drop)]
pub struct Described<'s> {
    pub line: usize,
    pub settings: Settings<'s>,
    /// Whether it is the next link of the chain that the bundle before it ends.
    pub is_link: bool,
    /// The number of the bundle whose resources it has.
    pub resources_of: usize,
}

/// A resource of a fixture, and what its reader and the call that adds it are to report, as it is written there.
#[derive(Drop)]
pub struct Part<'s> {
    pub line: usize,
    /// The number of its bundle.
    pub bundle: usize,
    pub is_overriding: bool,
    pub source: &'s str,
    pub junk: String,
    pub left: String,
}

/// What a call is to give: a text, what a formatter makes of it, and errors, each with a line feed.
#[derive(Drop)]
pub struct Told {
    pub text: String,
    pub formatted: Option<String>,
    pub errors: String,
    /// Whether the writer is full after the text, so that it and the errors begin those of the whole.
    pub is_full: bool,
}

impl Told {
    /// What `format_pattern` gives.
    pub fn formatted(&self) -> &str {
        match &self.formatted {
            Some(text) => text.as_str(),
            None => self.text.as_str(),
        }
    }
}

/// What a row wants.
#[derive(Drop)]
pub enum Wanted<'s> {
    Told(Told),
    Nothing,
    Absent,
    Attributes(&'s str),
}

/// A row of a fixture: of a message's value or one of its attributes.
#[derive(Drop)]
pub struct Row<'s> {
    pub line: usize,
    /// The number of its bundle.
    pub bundle: usize,
    pub id: &'s str,
    pub attribute: Option<&'s str>,
    pub arguments: &'s str,
    pub wanted: Wanted<'s>,
}

/// A fixture.
#[derive(Drop)]
pub struct Fixture<'s> {
    pub bundles: Vec<Described<'s>>,
    pub parts: Vec<Part<'s>>,
    pub functions: Vec<(&'s str, Answer<'s>)>,
    pub rows: Vec<Row<'s>>,
    /// The lines that can't be read.
    pub unread: Vec<usize>,
}

impl<'s> Fixture<'s> {
    /// One that says nothing.
    pub fn new(alloc: Global) -> Fixture<'s> {
        Fixture {
            bundles: Vec::new(alloc),
            parts: Vec::new(alloc),
            functions: Vec::new(alloc),
            rows: Vec::new(alloc),
            unread: Vec::new(alloc),
        }
    }
}

impl<'s> Row<'s> {
    /// Adds a line to the text. Whether there is one.
    pub fn add_line(&mut self, line: &str) -> Result<bool, AllocError> {
        let Wanted::Told(told) = &mut self.wanted else {
            return Ok(false);
        };
        if !told.errors.is_empty() {
            return Ok(false);
        }
        let text = match &mut told.formatted {
            Some(text) => text,
            None => &mut told.text,
        };
        text.push_str("\n")?;
        text.push_str(line)?;
        Ok(true)
    }

    /// Says what a formatter makes of the text. Whether that wasn't said.
    pub fn add_formatted(&mut self, text: String) -> bool {
        let Wanted::Told(told) = &mut self.wanted else {
            return false;
        };
        if told.formatted.is_some() || !told.errors.is_empty() {
            return false;
        }
        told.formatted = Some(text);
        true
    }

    /// Adds an error. Whether there is a call.
    pub fn add_error(&mut self, error: &str) -> Result<bool, AllocError> {
        let Wanted::Told(told) = &mut self.wanted else {
            return Ok(false);
        };
        told.errors.push_str(error)?;
        told.errors.push_str("\n")?;
        Ok(true)
    }
}
