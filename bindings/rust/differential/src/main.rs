//! Random programs of calls, for two crates with one surface: `differential run FROM COUNT` writes a line for each seed, with a
//! sum of what its program saw; `differential show SEED` writes what it saw. `differential time FILE ID N [NAME=VALUE]..` formats
//! a message N times.

mod names;
mod own;
mod program;
mod random;
mod sources;
mod timed;

use std::collections::hash_map::DefaultHasher;
use std::hash::{Hash, Hasher};
use std::panic;
use std::process::ExitCode;

fn main() -> ExitCode {
    panic::set_hook(Box::new(|_| {}));
    let words: Vec<String> = std::env::args().skip(1).collect();
    let numbers: Vec<u64> = words.iter().skip(1).flat_map(|word| word.parse()).collect();
    match (words.first().map(String::as_str), numbers.as_slice()) {
        (Some("run"), [from, count]) => (*from..from + count).for_each(sum),
        (Some("show"), [seed]) => println!("{}", seen(*seed)),
        (Some("time"), _) if timed::run(&words[1..]).is_some() => {}
        _ => {
            eprintln!("usage: differential run FROM COUNT | show SEED | time FILE ID N [--no-isolate] [NAME=VALUE]..");
            return ExitCode::from(2);
        }
    }
    ExitCode::SUCCESS
}

fn seen(seed: u64) -> String {
    panic::catch_unwind(|| program::run(seed)).unwrap_or_else(|_| "panic".to_string())
}

fn sum(seed: u64) {
    let seen = seen(seed);
    let mut hasher = DefaultHasher::new();
    seen.hash(&mut hasher);
    let odd = program::odd(seed);
    let kind = match (odd.nested_terms, odd.many_placeables, odd.floats) {
        (true, _, _) => "terms",
        (_, true, _) => "many",
        (_, _, true) => "floats",
        _ => "plain",
    };
    let sum = if seen == "panic" {
        seen
    } else {
        format!("{:016x}", hasher.finish())
    };
    println!("{seed} {kind} {sum}");
}
