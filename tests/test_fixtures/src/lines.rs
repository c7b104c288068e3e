//! The lines of a fixture.

/// What a directive says: a line that begins with `#` and no blank.
#[derive(Clone, Copy, Drop, PartialEq, Eq)]
pub enum Sign {
    /// `#=`: a call and its text.
    Call,
    /// `#<`: a call to a writer that is full after a text.
    Full,
    /// `#+`: the next line of a text.
    More,
    /// `#:`: what a formatter makes of the text.
    Formatted,
    /// `#!`: an error of the call.
    Fault,
    /// `#none`: a value or an attribute isn't there.
    Nothing,
    /// `#absent`: a message isn't there.
    Absent,
    /// `#attributes`: the names of a message's attributes.
    Attributes,
    /// `#junk`: an error of the resource's reader.
    Junk,
    /// `#left`: an error of the call that adds the resource.
    Left,
    /// `#end`: the source ends here.
    End,
    /// `#@`: a setting.
    Setting,
    /// `#---`: another resource.
    Resource,
    /// `#===`: another bundle.
    Bundle,
}

const SIGNS: &[(&str, Sign)] = &[
    ("#=", Sign::Call),
    ("#<", Sign::Full),
    ("#+", Sign::More),
    ("#:", Sign::Formatted),
    ("#!", Sign::Fault),
    ("#none", Sign::Nothing),
    ("#absent", Sign::Absent),
    ("#attributes", Sign::Attributes),
    ("#junk", Sign::Junk),
    ("#left", Sign::Left),
    ("#end", Sign::End),
    ("#@", Sign::Setting),
    ("#---", Sign::Resource),
    ("#===", Sign::Bundle),
];

/// A line as it is read.
#[derive(Clone, Copy, Drop)]
pub enum Line<'s> {
    /// A line of the source.
    Source,
    /// A comment of the source, or an empty line.
    Blank,
    /// A directive with what stands after its sign and a blank.
    Directive(Sign, &'s str),
    /// A directive that says nothing known.
    Unknown,
}

/// What stands after a word that ends a line or has a blank after it.
pub fn after<'s>(line: &'s str, word: &str) -> Option<&'s str> {
    let rest = line.strip_prefix(word)?;
    if rest.is_empty() {
        Some(rest)
    } else {
        rest.strip_prefix(' ')
    }
}

/// Whether a line is a comment: signs `#`, and then a blank or nothing.
fn is_comment(line: &str) -> bool {
    let rest = line.trim_start_matches('#');
    rest.is_empty() || rest.starts_with(' ')
}

/// The directive of a line that begins with `#` and is no comment.
fn directive(line: &str) -> Line<'_> {
    for (word, sign) in SIGNS {
        if let Some(rest) = after(line, *word) {
            return Line::Directive(*sign, rest);
        }
    }
    Line::Unknown
}

/// Reads a line.
pub fn read(line: &str) -> Line<'_> {
    if !line.starts_with('#') {
        return if line.is_empty() {
            Line::Blank
        } else {
            Line::Source
        };
    }
    if is_comment(line) {
        Line::Blank
    } else {
        directive(line)
    }
}

/// The id that a line of a source begins with, if that is one of a message.
pub fn id_of(line: &str) -> Option<&str> {
    if !line.starts_with(|sign: char| sign.is_ascii_alphabetic()) {
        return None;
    }
    let is_other = |sign: char| !(sign.is_ascii_alphanumeric() || sign == '-' || sign == '_');
    match line.find(is_other) {
        Some(end) => Some(line.split_at_checked(end)?.0),
        None => Some(line),
    }
}
