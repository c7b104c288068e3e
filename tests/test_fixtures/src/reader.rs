//! Reads fixtures.
use crate::fixture::{Described, Fixture, Part, Row, Told, Wanted};
use crate::lines::{Line, Sign, id_of, read as read_line};
use crate::settings::{Setting, Settings, setting_of};
use crate::texts::{around_bar, first_word, unescaped};
use std::alloc::{AllocError, Global};

/// Where a line stands: its number, its first byte, and the first after it.
#[derive(Clone, Copy, Drop)]
struct Place {
    number: usize,
    start: usize,
    end: usize,
}

/// A fixture that is being read.
#[derive(Drop)]
struct Reader<'s> {
    alloc: Global,
    text: &'s str,
    fixture: Fixture<'s>,
    settings: Settings<'s>,
    /// Where the source begins that is being read.
    start: usize,
    /// Whether no source is being read.
    is_closed: bool,
    /// Whether an entry or a row of the bundle was read.
    has_begun: bool,
    /// Whether lines may be added to the last row.
    is_open: bool,
    /// The id of the last message of the resource.
    above: &'s str,
}

/// The part of a text between two places; empty where they are none.
fn between(text: &str, start: usize, end: usize) -> &str {
    let Some((prefix, _)) = text.split_at_checked(end) else {
        return "";
    };
    match prefix.split_at_checked(start) {
        Some((_, part)) => part,
        None => "",
    }
}

impl<'s> Reader<'s> {
    fn new(alloc: Global, text: &'s str) -> Reader<'s> {
        Reader {
            alloc,
            text,
            fixture: Fixture::new(alloc),
            settings: Settings::unset(0),
            start: 0,
            is_closed: false,
            has_begun: false,
            is_open: false,
            above: "",
        }
    }

    /// The number of the bundle that is being read.
    fn bundle(&self) -> usize {
        self.fixture.bundles.len().saturating_sub(1)
    }

    // ---- resources and bundles

    /// Begins a resource.
    fn begin_part(
        &mut self,
        line: usize,
        start: usize,
        is_overriding: bool,
    ) -> Result<(), AllocError> {
        let bundle = self.bundle();
        self.fixture.parts.push(Part {
            line,
            bundle,
            is_overriding,
            source: "",
            junk: String::new(self.alloc),
            left: String::new(self.alloc),
        })?;
        self.start = start;
        self.is_closed = false;
        self.above = "";
        Ok(())
    }

    /// Begins a bundle.
    fn begin_bundle(
        &mut self,
        line: usize,
        is_link: bool,
        resources_of: usize,
    ) -> Result<(), AllocError> {
        self.has_begun = false;
        self.above = "";
        self.fixture.bundles.push(Described {
            line,
            settings: self.settings,
            is_link,
            resources_of,
        })?;
        Ok(())
    }

    /// Ends the source that is being read.
    fn close(&mut self, end: usize) {
        if self.is_closed {
            return;
        }
        self.is_closed = true;
        let source = between(self.text, self.start, end);
        if let Some(part) = self.fixture.parts.last_mut() {
            part.source = source;
        }
    }

    /// Another resource. Whether the bundle has resources of its own.
    fn resource(&mut self, place: Place, word: &str) -> Result<bool, AllocError> {
        self.close(place.start);
        if !self.has_own() || !(word.is_empty() || word == "overriding") {
            return Ok(false);
        }
        self.begin_part(place.number, place.end, !word.is_empty())?;
        Ok(true)
    }

    /// Another bundle. Whether it is one of the three kinds.
    fn next_bundle(&mut self, place: Place, word: &str) -> Result<bool, AllocError> {
        self.close(place.start);
        let number = self.fixture.bundles.len();
        match word {
            "" | "chain" => {
                self.begin_bundle(place.number, !word.is_empty(), number)?;
                self.begin_part(place.number, place.end, false)?;
                Ok(true)
            }
            "again" => {
                let resources_of = match self.fixture.bundles.last() {
                    Some(before) => before.resources_of,
                    None => number,
                };
                self.begin_bundle(place.number, false, resources_of)?;
                Ok(true)
            }
            _ => Ok(false),
        }
    }

    /// Whether the bundle has resources of its own.
    fn has_own(&self) -> bool {
        match self.fixture.bundles.last() {
            Some(bundle) => bundle.resources_of == self.bundle(),
            None => false,
        }
    }

    /// A line of the source. Whether one may stand here.
    fn source(&mut self, line: &'s str) -> bool {
        self.has_begun = true;
        self.is_open = false;
        if let Some(id) = id_of(line) {
            self.above = id;
        }
        !self.is_closed
    }

    /// A report of the resource. Whether there is one.
    fn report(&mut self, sign: Sign, rest: &str) -> Result<bool, AllocError> {
        if !self.has_own() {
            return Ok(false);
        }
        let Some(part) = self.fixture.parts.last_mut() else {
            return Ok(false);
        };
        let reports = if sign == Sign::Junk {
            &mut part.junk
        } else {
            &mut part.left
        };
        reports.push_str(rest)?;
        reports.push_str("\n")?;
        Ok(true)
    }

    // ---- settings

    /// A setting. Whether it can be read and may stand here.
    fn setting(&mut self, words: &'s str) -> Result<bool, AllocError> {
        let Some(setting) = setting_of(words) else {
            return Ok(false);
        };
        if self.has_begun {
            return Ok(false);
        }
        if let Setting::Function(id, answer) = setting {
            self.fixture.functions.push((id, answer))?;
        }
        self.settings = self.settings.with(setting, self.fixture.functions.len());
        if let Some(bundle) = self.fixture.bundles.last_mut() {
            bundle.settings = self.settings;
        }
        Ok(true)
    }

    // ---- rows

    /// The id and the attribute that a word names, of which the first may be left out.
    fn target(&self, word: &'s str) -> Option<(&'s str, Option<&'s str>)> {
        let (id, attribute) = match word.split_once('.') {
            Some((id, name)) => (id, Some(name)),
            None => (word, None),
        };
        if !id.is_empty() {
            return Some((id, attribute));
        }
        if self.above.is_empty() {
            return None;
        }
        Some((self.above, attribute))
    }

    /// Adds a row. Whether it names a message.
    fn row(
        &mut self,
        place: Place,
        target: &'s str,
        arguments: &'s str,
        wanted: Wanted<'s>,
    ) -> Result<bool, AllocError> {
        let Some((id, attribute)) = self.target(target) else {
            return Ok(false);
        };
        self.has_begun = true;
        let bundle = self.bundle();
        self.fixture.rows.push(Row {
            line: place.number,
            bundle,
            id,
            attribute,
            arguments,
            wanted,
        })?;
        Ok(true)
    }

    /// A call. Whether it can be read.
    fn call(&mut self, place: Place, rest: &'s str, is_full: bool) -> Result<bool, AllocError> {
        let (words, text) = around_bar(rest).unwrap_or(("", rest));
        let Some(text) = unescaped(self.alloc, text)? else {
            return Ok(false);
        };
        let (word, others) = first_word(words);
        let (target, arguments) = if word.contains('=') {
            ("", words)
        } else {
            (word, others)
        };
        let errors = String::new(self.alloc);
        let told = Told {
            text,
            formatted: None,
            errors,
            is_full,
        };
        self.is_open = self.row(place, target, arguments, Wanted::Told(told))?;
        Ok(self.is_open)
    }

    /// A line that says more of the last row. Whether it can.
    fn more(&mut self, sign: Sign, rest: &str) -> Result<bool, AllocError> {
        let Some(text) = unescaped(self.alloc, rest)? else {
            return Ok(false);
        };
        if !self.is_open {
            return Ok(false);
        }
        let Some(row) = self.fixture.rows.last_mut() else {
            return Ok(false);
        };
        match sign {
            Sign::More => row.add_line(text.as_str()),
            Sign::Formatted => Ok(row.add_formatted(text)),
            _ => row.add_error(text.as_str()),
        }
    }

    // ---- lines

    /// A directive. Whether it can be read.
    fn directive(&mut self, place: Place, sign: Sign, rest: &'s str) -> Result<bool, AllocError> {
        match sign {
            Sign::Call => self.call(place, rest, false),
            Sign::Full => self.call(place, rest, true),
            Sign::More | Sign::Formatted | Sign::Fault => self.more(sign, rest),
            Sign::Nothing => self.row(place, rest, "", Wanted::Nothing),
            Sign::Absent => self.row(place, rest, "", Wanted::Absent),
            Sign::Attributes => self.row(place, "", "", Wanted::Attributes(rest)),
            Sign::Junk | Sign::Left => self.report(sign, rest),
            Sign::End => {
                self.close(place.start.saturating_sub(1));
                Ok(rest.is_empty())
            }
            Sign::Setting => self.setting(rest),
            Sign::Resource => self.resource(place, rest),
            Sign::Bundle => self.next_bundle(place, rest),
        }
    }

    /// A line. Whether it can be read.
    fn take(&mut self, place: Place, line: &'s str) -> Result<bool, AllocError> {
        match read_line(line) {
            Line::Blank => Ok(true),
            Line::Unknown => Ok(false),
            Line::Source => Ok(self.source(line)),
            Line::Directive(sign, rest) => self.directive(place, sign, rest),
        }
    }

    /// Takes each line.
    fn take_all(&mut self) -> Result<(), AllocError> {
        let mut place = Place {
            number: 0,
            start: 0,
            end: 0,
        };
        for line in self.text.split('\n') {
            place.number = place.number.saturating_add(1);
            place.start = place.end;
            place.end = place.end.saturating_add(line.len()).saturating_add(1);
            if !self.take(place, line.strip_suffix('\r').unwrap_or(line))? {
                self.fixture.unread.push(place.number)?;
            }
        }
        Ok(())
    }
}

/// Reads a fixture.
pub fn read(alloc: Global, text: &str) -> Result<Fixture<'_>, AllocError> {
    let mut reader = Reader::new(alloc, text);
    reader.begin_bundle(1, false, 0)?;
    reader.begin_part(1, 0, false)?;
    reader.take_all()?;
    reader.close(text.len());
    Ok(reader.fixture)
}
