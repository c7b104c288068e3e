//! What the library tells of a source, line by line.

use crate::errors::{EntryKind, FluentError, ParserError};

/// What a line tells, and of which line of the source.
#[derive(Clone, Debug, Eq, PartialEq)]
pub(crate) struct Told {
    pub(crate) line: usize,
    pub(crate) error: FluentError,
}

/// Reads lines, and passes over what is none of them.
pub(crate) fn read(report: &str) -> Vec<Told> {
    report.lines().filter_map(told).collect()
}

fn told(line: &str) -> Option<Told> {
    let (number, text) = line.split_once(": ")?;
    let error = unreadable(text).or_else(|| overriding(text))?;
    let line = number.parse().ok()?;
    Some(Told { line, error })
}

/// As `unreadable entry at bytes 6..13`.
fn unreadable(text: &str) -> Option<FluentError> {
    let range = text.strip_prefix("unreadable entry at bytes ")?;
    let (start, end) = range.split_once("..")?;
    let pos = start.parse().ok()?..end.parse().ok()?;
    Some(FluentError::ParserError(ParserError { pos }))
}

/// As `Attempt to override an existing message: "foo".`
fn overriding(text: &str) -> Option<FluentError> {
    let rest = text.strip_prefix("Attempt to override an existing ")?;
    let (kind, id) = rest.split_once(": \"")?;
    let kind = match kind {
        "message" => EntryKind::Message,
        "term" => EntryKind::Term,
        _ => return None,
    };
    let id = id.strip_suffix("\".")?.to_string();
    Some(FluentError::Overriding { kind, id })
}

#[cfg(test)]
mod tests {
    use super::*;

    #[test]
    fn lines_are_read() {
        let report = "2: unreadable entry at bytes 6..13\n\
                      9: Attempt to override an existing term: \"brand-name\".\n\
                      what is none\n";
        let error = FluentError::Overriding {
            kind: EntryKind::Term,
            id: "brand-name".to_string(),
        };
        let unreadable = FluentError::ParserError(ParserError { pos: 6..13 });
        assert_eq!(
            read(report),
            [
                Told {
                    line: 2,
                    error: unreadable
                },
                Told { line: 9, error }
            ]
        );
    }
}
