//! Each write of a run's output fails in turn: with each kind of error, after a piece that was taken in part, and with no
//! byte taken.

use crate::show_cli::outcome::{expect_outcome, run_over};
use crate::show_cli::stopping::{FAULTS, Fault, stops_after};
use std::alloc::{AllocError, Global};
use std::process::Abort;
use std::test::Fail;

/// Words, input and text of a run; the lines of the source's errors; the line of the error in the text, and how many
/// bytes are written before it is added.
struct Row {
    words: &'static [&'static str],
    source: &'static [u8],
    text: &'static str,
    lines: &'static str,
    line: &'static str,
    from: usize,
}

const UNKNOWN: &str = "Resolver error: Unknown variable: $x\n";

const ROWS: &[Row] = &[
    Row {
        words: &["a"],
        source: b"a = x{ $x }y",
        text: "x\u{2068}{$x}\u{2069}y\n",
        lines: "",
        line: UNKNOWN,
        from: 4,
    },
    Row {
        words: &["--cardinal", "few: n = 2..4", "s", "n=3"],
        source: b"s = { $n ->\n    [few] f{ $x }\n   *[other] o\n}\ns = 1\njunk\n",
        text: "f\u{2068}{$x}\u{2069}\n",
        lines: "Parser error: unreadable entry at bytes 52..57\nAttempt to override an existing message: \"s\".\n",
        line: UNKNOWN,
        from: 4,
    },
    Row {
        words: &["--fallback", "junk\nb = { $x }", "b"],
        source: b"a = 1",
        text: "{$x}\n",
        lines: "Parser error: unreadable entry at bytes 0..5\n",
        line: UNKNOWN,
        from: 0,
    },
    Row {
        words: &["--no-isolate", "a", "name=Anna"],
        source: b"-t = { $name }!\na = x { -t(name: \"Bo\") } { $name }",
        text: "x Bo! Anna\n",
        lines: "",
        line: "",
        from: 0,
    },
];

/// How many writes a run of a row makes at most.
const MOST: u64 = 40;

/// All lines of a row, where the text was written so far.
fn lines_at(alloc: Global, row: &Row, taken: usize) -> Result<String, AllocError> {
    let mut lines = String::from_str(alloc, row.lines)?;
    if taken >= row.from {
        lines.push_str(row.line)?;
    }
    Ok(lines)
}

/// Makes a run whose output stops; `false` where it is whole before.
fn output_stops(
    rt: &impl Abort,
    alloc: Global,
    row: &Row,
    left: u64,
    fault: Fault,
) -> Result<bool, Fail> {
    let out = stops_after(alloc, left, fault);
    let ran = run_over(alloc, row.words, row.source, out, Vec::new(alloc))?;
    let (taken, said) = (ran.out.taken.as_slice(), ran.err.as_slice());
    let mut lines = lines_at(alloc, row, taken.len())?;
    if !ran.out.has_stopped {
        expect_outcome(rt, ran.status, taken, said, (0, row.text, lines.as_str()));
        return Ok(false);
    }
    lines.push_str("fluent_show: writing failed\n")?;
    assert_eq!(rt; ran.status, 3, "{} at {left}", row.text);
    assert!(rt;
        row.text.as_bytes().starts_with(taken),
        "{} at {left}",
        row.text
    );
    assert_eq!(rt; said, lines.as_bytes(), "{} at {left}", row.text);
    assert_eq!(rt; ran.out.later, 0, "{} at {left}", row.text);
    Ok(true)
}

/// The output stops at each write in turn.
fn output_stops_anywhere(
    rt: &impl Abort,
    alloc: Global,
    row: &Row,
    fault: Fault,
) -> Result<(), Fail> {
    for left in 0..MOST {
        if !output_stops(rt, alloc, row, left, fault)? {
            return Ok(());
        }
    }
    Err("no run is whole".into())
}

/// Nothing is written on it after the fault; what was written begins the text, and what was found is said.
#[test]
fn an_output_that_stops_anywhere_ends_the_run(rt: HostRuntime) -> Result<(), Fail> {
    for row in ROWS {
        for fault in FAULTS {
            output_stops_anywhere(&rt, rt.alloc(), row, *fault)?;
        }
    }
    Ok(())
}
