//! Times adding.

use crate::format::{BATCHES, bundle_of, read};
use fluent_bundle::FluentResource;
use std::io;
use std::time::Instant;

/// The nanoseconds of a batch of turns, each of which adds a resource to a bundle with the built-in function.
fn time_batch<'s>(rt: &HostRuntime, resource: &FluentResource<'s>, turns: u32) -> io::Result<u128> {
    let start = Instant::now(rt)?;
    for _ in 0..turns {
        bundle_of(rt.alloc(), true, resource)?;
    }
    Ok(start.elapsed(rt)?.as_nanos())
}

/// Adds what a source holds to new bundles, in batches of so many turns; says the nanoseconds of a turn in the best
/// batch.
pub fn time_adding(rt: &HostRuntime, source: &str, turns: u32) -> io::Result<()> {
    let resource = read(rt.alloc(), source)?;
    let mut best = u128::MAX;
    for _ in 0..BATCHES {
        best = best.min(time_batch(rt, &resource, turns)?);
    }
    let nanoseconds = best.checked_div(turns as u128).unwrap_or(0);
    eprintln!(rt; "{nanoseconds} ns a turn")?;
    Ok(())
}
