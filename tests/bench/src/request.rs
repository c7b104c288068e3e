//! What the words of a call ask for.

use std::{env, io};

/// `parse N`: read the source in batches of N turns. `add N`: add it to a bundle, likewise. `format ID N [--no-isolate]
/// [NAME=VALUE]..`: format a message, or an attribute `MESSAGE.ATTRIBUTE`, in batches of N calls, of a pattern that is
/// looked up once. `value ID N ..`: the same by id, so that each call looks it up. `words` holds all of them but the
/// program's name.
#[derive(Drop)]
pub enum Request {
    Parse { turns: u32 },
    Add { turns: u32 },
    Format { turns: u32, words: Vec<String> },
    Value { turns: u32, words: Vec<String> },
}

impl Request {
    /// What the words after the program's name ask for.
    pub fn from_words(rt: &HostRuntime) -> io::Result<Request> {
        let mut words = Vec::new(rt.alloc());
        for word in env::args(rt)?.skip(1) {
            words.push(word)?;
        }
        match words.first() {
            Some(command) if command.as_str() == "parse" => Ok(Request::Parse {
                turns: number_at(words.as_slice(), 1)?,
            }),
            Some(command) if command.as_str() == "add" => Ok(Request::Add {
                turns: number_at(words.as_slice(), 1)?,
            }),
            Some(command) if command.as_str() == "format" => Ok(Request::Format {
                turns: number_at(words.as_slice(), 2)?,
                words,
            }),
            Some(command) if command.as_str() == "value" => Ok(Request::Value {
                turns: number_at(words.as_slice(), 2)?,
                words,
            }),
            _ => Err(bad_usage()),
        }
    }
}

/// Words that ask for nothing.
pub fn bad_usage() -> io::Error {
    io::Error::from(io::ErrorKind::InvalidInput)
}

/// How many turns the word at a place asks for: one at least.
fn number_at(words: &[String], place: usize) -> io::Result<u32> {
    match words.get(place) {
        Some(word) => match word.as_str().parse::<u32>() {
            Ok(turns) if turns > 0 => Ok(turns),
            _ => Err(bad_usage()),
        },
        None => Err(bad_usage()),
    }
}
