//! Writers that take little or fail.

use crate::show_cli::outcome::{expect_outcome, run_over};
use std::alloc::Global;
use std::io;
use std::io::Write;
use std::test::Fail;

const INTRO: &[u8] = b"intro = Welcome, { $name }.";

/// Takes so many bytes, and then fails or takes none.
#[derive(Drop)]
struct Narrow {
    taken: Vec<u8>,
    room: usize,
    fails: bool,
}

impl Write for Narrow {
    fn write(&mut self, buf: &[u8]) -> io::Result<usize> {
        let n = self.room.min(buf.len());
        if n == 0 && self.fails {
            return Err(io::Error::from(io::ErrorKind::Interrupted));
        }
        self.taken.extend_from_slice(&buf[..n])?;
        self.room -= n;
        Ok(n)
    }

    fn flush(&mut self) -> io::Result<()> {
        Ok(())
    }
}

fn of_room(alloc: Global, room: usize, fails: bool) -> Narrow {
    Narrow {
        taken: Vec::new(alloc),
        room,
        fails,
    }
}

/// The room of an output, whether it fails when it is full, and what it takes of the text without arguments.
const ROOMS: &[(usize, bool, &str)] = &[
    (12, true, "Welcome, \u{2068}"),
    (23, true, "Welcome, \u{2068}{$name}\u{2069}."),
    (12, false, "Welcome, \u{2068}"),
    (23, false, "Welcome, \u{2068}{$name}\u{2069}."),
];

#[test]
fn stops_where_writing_fails(rt: HostRuntime) -> Result<(), Fail> {
    let alloc = rt.alloc();
    let lines = "Resolver error: Unknown variable: $name\nfluent_show: writing failed\n";
    for (room, fails, text) in ROOMS {
        let out = of_room(alloc, *room, *fails);
        let left = run_over(alloc, &["intro"], INTRO, out, Vec::new(alloc))?;
        let output = left.out.taken.as_slice();
        expect_outcome(
            &rt,
            left.status,
            output,
            left.err.as_slice(),
            (3, *text, lines),
        );
    }
    Ok(())
}

/// The same of the text of a chain.
#[test]
fn stops_where_writing_of_a_fallback_fails(rt: HostRuntime) -> Result<(), Fail> {
    let alloc = rt.alloc();
    let words = ["--fallback", "intro = Welcome, { $name }.", "intro"];
    let lines = "Resolver error: Unknown variable: $name\nfluent_show: writing failed\n";
    for (room, fails, text) in ROOMS {
        let out = of_room(alloc, *room, *fails);
        let left = run_over(alloc, &words, b"a = 1".as_slice(), out, Vec::new(alloc))?;
        let output = left.out.taken.as_slice();
        let want = (3, *text, lines);
        expect_outcome(&rt, left.status, output, left.err.as_slice(), want);
    }
    Ok(())
}

/// What an output without room leaves to report of a source that has errors of its own.
const SOURCE_LINES: &str =
    "Parser error: unreadable entry at bytes 51..59\nAttempt to override an existing message: \"intro\".\nfluent_show: writing failed\n";

#[test]
fn reports_the_source_where_writing_fails(rt: HostRuntime) -> Result<(), Fail> {
    let alloc = rt.alloc();
    let source = b"intro = Welcome, { $name }.\nintro = Hi, { $name }.\nb = { $x";
    for fails in &[true, false] {
        let out = of_room(alloc, 0, *fails);
        let left = run_over(alloc, &["intro"], source.as_slice(), out, Vec::new(alloc))?;
        let output = left.out.taken.as_slice();
        let want = (3, "", SOURCE_LINES);
        expect_outcome(&rt, left.status, output, left.err.as_slice(), want);
    }
    Ok(())
}

/// The room of standard error, and what it takes of the line of the one error.
const SAID: &[(usize, &str)] = &[(0, ""), (8, "Resolver")];

#[test]
fn gives_the_status_where_not_all_can_be_said(rt: HostRuntime) -> Result<(), Fail> {
    let alloc = rt.alloc();
    for (room, said) in SAID {
        for fails in &[true, false] {
            let err = of_room(alloc, *room, *fails);
            let left = run_over(alloc, &["intro"], INTRO, Vec::new(alloc), err)?;
            assert_eq!(rt; left.status, 3);
            assert_eq!(rt; left.err.taken.as_slice(), said.as_bytes());
        }
    }
    Ok(())
}
