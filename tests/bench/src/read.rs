//! Times the reader.

use crate::count::Count;
use crate::format::BATCHES;
use fluent_syntax::ast::Resource;
use fluent_syntax::{ParseFault, parse_runtime};
use std::alloc::Global;
use std::io;
use std::time::Instant;

fn read<'s>(alloc: Global, source: &'s str) -> io::Result<Resource<'s>> {
    match parse_runtime(alloc, source) {
        Ok(resource) => Ok(resource),
        Err(ParseFault::Parser(resource, _)) => Ok(resource),
        Err(ParseFault::Memory) => Err(io::Error::from(io::ErrorKind::OutOfMemory)),
    }
}

/// The nanoseconds of a batch of turns, each of which reads a source and drops what it read.
fn time_batch(rt: &HostRuntime, source: &str, turns: u32) -> io::Result<u128> {
    let start = Instant::now(rt)?;
    for _ in 0..turns {
        read(rt.alloc(), source)?;
    }
    Ok(start.elapsed(rt)?.as_nanos())
}

/// The least time of a batch.
fn time_batches(rt: &HostRuntime, source: &str, turns: u32) -> io::Result<u128> {
    let mut best = u128::MAX;
    for _ in 0..BATCHES {
        best = best.min(time_batch(rt, source, turns)?);
    }
    Ok(best)
}

/// Reads a source in batches of so many turns; says what it holds, and the nanoseconds of a turn in the best batch.
/// What it counts was read before, and is kept while it reads.
pub fn time_reading(rt: &HostRuntime, source: &str, turns: u32) -> io::Result<()> {
    let resource = read(rt.alloc(), source)?;
    let best = time_batches(rt, source, turns)?;
    let count = Count::of(resource.body.as_slice());
    println!(rt;
        "{} bytes, {} messages, {} terms, {} junk",
        source.len(),
        count.messages,
        count.terms,
        count.junk
    )?;
    let nanoseconds = best.checked_div(turns as u128).unwrap_or(0);
    eprintln!(rt; "{nanoseconds} ns a turn")?;
    Ok(())
}
