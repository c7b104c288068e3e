//! Reads an FTL source, adds one to a bundle, or formats a message of one, again and again, for measuring.
#![tactic(auto)]

mod add;
mod count;
mod format;
mod read;
mod request;
mod value;

use add::time_adding;
use format::time_formatting;
use read::time_reading;
use request::Request;
use std::io;
use value::time_values;

fn main(rt: HostRuntime) -> io::Result<()> {
    let request = Request::from_words(&rt)?;
    let source = io::read_to_string(rt.alloc(), rt.stdin())?;
    match request {
        Request::Parse { turns } => time_reading(&rt, source.as_str(), turns),
        Request::Add { turns } => time_adding(&rt, source.as_str(), turns),
        Request::Format { turns, words } => {
            time_formatting(&rt, source.as_str(), turns, words.as_slice())
        }
        Request::Value { turns, words } => {
            time_values(&rt, source.as_str(), turns, words.as_slice())
        }
    }
}
