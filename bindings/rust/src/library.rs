//! What is asked of the library, with texts and lists in place of buffers.

use crate::ffi::{Asked, Bundle, Lengths, Status};
use crate::records::Records;
use crate::report::{self, Told};
use crate::types::FluentNumber;
use crate::unic_langid::LanguageIdentifier;
use std::alloc::Layout;

/// The language whose plural rules stand for one that has none, as in the crate.
const FALLBACK: &str = "en";

/// How many bytes of a text, and of its errors, take no memory before they are known.
const TEXT: usize = 512;
const ERRORS: usize = 128;

/// Where the library had no memory: the process stops, as where std has none.
pub(crate) fn out_of_memory() -> ! {
    std::alloc::handle_alloc_error(Layout::new::<u8>())
}

/// Goes on where the library had memory.
pub(crate) fn with_memory(status: Status) -> Status {
    if status == Status::NO_MEMORY {
        out_of_memory()
    }
    status
}

/// A bundle, and the language whose plural rules it has.
pub(crate) struct Opened {
    pub(crate) bundle: Bundle,
    pub(crate) language: String,
}

/// Opens a bundle for a tag. `und`, which names no language, has English rules as in the crate, and not the root's.
pub(crate) fn open_for(tag: &LanguageIdentifier, isolate: bool) -> Opened {
    match tag.language.as_str() {
        "und" => open(FALLBACK, isolate),
        _ => open(&tag.to_string(), isolate),
    }
}

/// Opens a bundle for a language, or for English where it has no plural rules.
pub(crate) fn open(language: &str, isolate: bool) -> Opened {
    for language in [language, FALLBACK] {
        match Bundle::open(language, isolate) {
            Ok((bundle, Status::OK)) => {
                let language = language.to_string();
                return Opened { bundle, language };
            }
            Err(Status::NO_MEMORY) => out_of_memory(),
            _ => {}
        }
    }
    // English has plural rules, so that nothing but memory is missing.
    out_of_memory()
}

/// A text that a call writes into a buffer, which grows until it fits.
fn grown(mut call: impl FnMut(&mut [u8]) -> (Status, usize)) -> Option<String> {
    let mut room = vec![0; 256];
    loop {
        let (status, length) = call(&mut room);
        match with_memory(status) {
            Status::OK => {
                room.truncate(length);
                return Some(text(&room));
            }
            Status::TOO_SMALL if length > room.len() => room.resize(length, 0),
            _ => return None,
        }
    }
}

/// The library writes UTF-8 alone; of other bytes there would be a text all the same.
fn text(bytes: &[u8]) -> String {
    match std::str::from_utf8(bytes) {
        Ok(text) => text.to_string(),
        Err(_) => String::from_utf8_lossy(bytes).into_owned(),
    }
}

/// What was told of the source that was added last.
pub(crate) fn told(bundle: &mut Bundle) -> Vec<Told> {
    let report = grown(|room| bundle.report(room)).unwrap_or_default();
    report::read(&report)
}

/// The ids of all messages, a line each.
pub(crate) fn ids(bundle: &mut Bundle) -> String {
    grown(|room| bundle.ids(room)).unwrap_or_default()
}

/// The names of the attributes of a message, a line each.
pub(crate) fn attributes(bundle: &mut Bundle, id: &str) -> String {
    grown(|room| bundle.attributes(id, room)).unwrap_or_default()
}

/// What a formatting call gives.
pub(crate) enum Given {
    /// A text, and the records of its errors.
    Text(String, Vec<u8>),
    /// A question.
    Question(Vec<u8>),
    /// There is no such message.
    Nothing,
}

/// Formats by buffers on the stack, and once more where these are too small.
pub(crate) fn format(bundle: &mut Bundle, asked: &Asked<'_>) -> Given {
    let (mut out, mut err) = ([0; TEXT], [0; ERRORS]);
    let (status, lengths) = bundle.format(asked, &mut out, &mut err);
    if fits(status, lengths) {
        return given(status, lengths, &out, &err);
    }
    let (mut out, mut err) = (vec![0; lengths.text], vec![0; lengths.errors]);
    let (status, lengths) = bundle.format(asked, &mut out, &mut err);
    given(status, lengths, &out, &err)
}

fn fits(status: Status, lengths: Lengths) -> bool {
    match status {
        Status::TOO_SMALL => false,
        Status::ASKS => lengths.text <= TEXT,
        _ => true,
    }
}

fn given(status: Status, lengths: Lengths, out: &[u8], err: &[u8]) -> Given {
    let (Some(out), Some(err)) = (out.get(..lengths.text), err.get(..lengths.errors)) else {
        return Given::Nothing;
    };
    match with_memory(status) {
        Status::OK => Given::Text(text(out), err.to_vec()),
        Status::ASKS => Given::Question(out.to_vec()),
        _ => Given::Nothing,
    }
}

/// A message whose text is the plural category of `n`.
const CATEGORIES: &str = "c = { $n ->
    [zero] zero
    [one] one
    [two] two
    [few] few
    [many] many
   *[other] other
 }";

/// Whether a text names the plural category of a number.
pub(crate) fn is_category(language: &str, name: &str, number: &FluentNumber) -> bool {
    // A float that is no number to the library goes by no plural rules.
    if number.decimal().is_none() {
        return false;
    }
    let mut bundle = open(language, false).bundle;
    with_memory(bundle.add(CATEGORIES, false));
    let mut arguments = Records::default();
    arguments.put_number(b"n", number);
    let asked = Asked {
        id: "c",
        attribute: "",
        arguments: arguments.bytes(),
        answers: &[],
    };
    matches!(format(&mut bundle, &asked), Given::Text(category, _) if category == name)
}
