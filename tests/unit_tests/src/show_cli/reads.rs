//! Readers that give pieces, fail once or never end: what a run says of them, and how often it reads.

use crate::show_cli::outcome::{Outcome, expect_run};
use std::alloc::{AllocError, Global};
use std::io;
use std::io::{ErrorKind, Read};
use std::process::Abort;
use std::test::Fail;

const LINE: &[u8] = b"intro = Welcome, { $name }.\n";

/// Gives a text and then so many `#`, in pieces of at most so many bytes, and fails at one of its reads.
#[derive(Drop)]
struct Pieces<'x> {
    text: &'x [u8],
    hashes: u64,
    size: usize,
    fails_at: Option<(u64, ErrorKind)>,
    /// How many reads were made of it.
    reads: u64,
    /// The least room that one of them had.
    room: usize,
}

impl Read for Pieces<'_> {
    fn read(&mut self, buf: &mut [u8]) -> io::Result<usize> {
        self.reads = self.reads.saturating_add(1);
        self.room = self.room.min(buf.len());
        if let Some((at, kind)) = self.fails_at
            && at == self.reads
        {
            return Err(io::Error::from(kind));
        }
        let most = self.size.min(buf.len());
        let n = self.text.len().min(most);
        if n > 0 {
            buf[..n].copy_from_slice(&self.text[..n]);
            self.text = &self.text[n..];
            return Ok(n);
        }
        let n = self.hashes.min(most as u64) as usize;
        self.hashes -= n as u64;
        for byte in buf[..n].iter_mut() {
            *byte = b'#';
        }
        Ok(n)
    }
}

fn in_pieces(size: usize, hashes: u64) -> Pieces<'static> {
    Pieces {
        text: LINE,
        hashes,
        size,
        fails_at: None,
        reads: 0,
        room: usize::MAX,
    }
}

/// Makes a run, compares what it came to, how often it read, and that each read had room for 4,096 bytes.
fn expect_reads(
    rt: &impl Abort,
    alloc: Global,
    input: Pieces<'static>,
    reads: u64,
    want: Outcome<'_>,
) -> Result<(), AllocError> {
    let left = expect_run(rt, alloc, &["intro", "name=John"], input, want)?;
    assert_eq!(rt; left.reads, reads);
    assert!(rt; left.room >= 4096);
    Ok(())
}

const SHOWN: Outcome<'static> = (0, "Welcome, \u{2068}John\u{2069}.\n", "");

const UNREAD: Outcome<'static> = (3, "", "fluent_show: reading failed\n");

/// The size of pieces, and how often a text of 28 bytes is read: the last read shows its end.
const SIZES: &[(usize, u64)] = &[(1, 29), (2, 15), (3, 11), (28, 2), (100, 2)];

#[test]
fn reads_in_any_pieces(rt: HostRuntime) -> Result<(), Fail> {
    for (size, reads) in SIZES {
        expect_reads(&rt, rt.alloc(), in_pieces(*size, 0), *reads, SHOWN)?;
    }
    Ok(())
}

#[test]
fn takes_reads_that_fill_their_room(rt: HostRuntime) -> Result<(), Fail> {
    let input = in_pieces(usize::MAX, 100_000);
    expect_run(&rt, rt.alloc(), &["intro", "name=John"], input, SHOWN)?;
    Ok(())
}

#[test]
fn reads_nothing_where_a_rule_cannot_be_read(rt: HostRuntime) -> Result<(), Fail> {
    let words = ["--cardinal", "one", "intro"];
    let refused = (2, "", "fluent_show: bad plural rule\n");
    let left = expect_run(&rt, rt.alloc(), &words, in_pieces(10, 0), refused)?;
    assert_eq!(rt; left.reads, 0);
    Ok(())
}

const KINDS: &[ErrorKind] = &[
    ErrorKind::Interrupted,
    ErrorKind::WouldBlock,
    ErrorKind::OutOfMemory,
    ErrorKind::Other,
];

#[test]
fn tries_no_failed_read_again(rt: HostRuntime) -> Result<(), Fail> {
    for kind in KINDS {
        for at in 1..=4 {
            let mut input = in_pieces(10, 0);
            input.fails_at = Some((at, *kind));
            expect_reads(&rt, rt.alloc(), input, at, UNREAD)?;
        }
    }
    Ok(())
}

#[test]
fn takes_an_end_that_the_last_read_shows(rt: HostRuntime) -> Result<(), Fail> {
    let input = in_pieces(1, 999_971);
    expect_reads(&rt, rt.alloc(), input, 1_000_000, SHOWN)?;
    Ok(())
}

#[test]
fn stops_where_no_read_is_left_to_show_the_end(rt: HostRuntime) -> Result<(), Fail> {
    let input = in_pieces(1, 999_972);
    expect_reads(&rt, rt.alloc(), input, 1_000_000, UNREAD)?;
    Ok(())
}

#[test]
fn stops_reading_what_never_ends(rt: HostRuntime) -> Result<(), Fail> {
    let input = in_pieces(1, u64::MAX);
    expect_reads(&rt, rt.alloc(), input, 1_000_000, UNREAD)?;
    Ok(())
}
