//! A run over any reader and writers, and what it came to.

use fluent_bundle::Counting;
use fluent_show_cli::input::Reads;
use fluent_show_cli::run::run;
use std::alloc::{AllocError, Global};
use std::io::{Read, Write};
use std::process::Abort;

/// Status, output and error text.
pub type Outcome<'x> = (u8, &'x str, &'x str);

/// The status, and the reader and the writers as the run left them.
#[derive(Drop)]
pub struct Left<R, W, E> {
    pub status: u8,
    pub input: R,
    pub out: W,
    pub err: E,
}

fn words_of(alloc: Global, words: &[&str]) -> Result<Vec<String>, AllocError> {
    let mut all = Vec::new(alloc);
    for word in words {
        all.push(String::from_str(alloc, word)?)?;
    }
    Ok(all)
}

pub fn run_over<R: Read + Drop, W: Write + Drop, E: Write + Drop>(
    alloc: Global,
    words: &[&str],
    input: R,
    out: W,
    err: E,
) -> Result<Left<R, W, E>, AllocError> {
    let words = words_of(alloc, words)?;
    let mut input = Reads::new(input);
    let mut out = Counting::new(out);
    let mut err = Counting::new(err);
    let status = run(alloc, words.as_slice(), &mut input, &mut out, &mut err);
    Ok(Left {
        status,
        input: input.into_inner(),
        out: out.into_inner(),
        err: err.into_inner(),
    })
}

/// Compares status, output and error text of a run.
pub fn expect_outcome(
    rt: &impl Abort,
    status: u8,
    output: &[u8],
    errors: &[u8],
    want: Outcome<'_>,
) {
    let (want_status, want_output, want_errors) = want;
    assert_eq!(rt; status, want_status, "{want_errors}");
    assert_eq!(rt; output, want_output.as_bytes());
    assert_eq!(rt; errors, want_errors.as_bytes());
}

/// Makes a run, compares what it came to, and gives its reader back.
pub fn expect_run<R: Read + Drop>(
    rt: &impl Abort,
    alloc: Global,
    words: &[&str],
    input: R,
    want: Outcome<'_>,
) -> Result<R, AllocError> {
    let left = run_over(alloc, words, input, Vec::new(alloc), Vec::new(alloc))?;
    expect_outcome(
        rt,
        left.status,
        left.out.as_slice(),
        left.err.as_slice(),
        want,
    );
    Ok(left.input)
}
