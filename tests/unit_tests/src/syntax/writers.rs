//! What no clause of `fluent_syntax` says of writers that fail.
use crate::check::{Row, check, check_rows};
use fluent_syntax::{Counting, WriteFault, put};
use std::alloc::Global;
use std::io;

/// Takes at most `step` bytes a call, and fails at the call that follows the first `good` ones.
#[derive(Drop)]
struct Slow {
    taken: Vec<u8>,
    step: usize,
    good: u64,
}

impl io::Write for Slow {
    fn write(&mut self, piece: &[u8]) -> io::Result<usize> {
        if self.good == 0 {
            return Err(io::Error::from(io::ErrorKind::BrokenPipe));
        }
        self.good -= 1;
        let taken = piece.len().min(self.step);
        for b in piece[..taken].iter() {
            self.taken.push(*b)?;
        }
        Ok(taken)
    }

    fn flush(&mut self) -> io::Result<()> {
        Ok(())
    }
}

fn slow_writer(alloc: Global, step: usize, good: u64) -> Counting<Slow> {
    Counting::new(Slow {
        taken: Vec::new(alloc),
        step,
        good,
    })
}

/// What a writer takes in a call, how many calls are good, what becomes of `hello`, what the writer has of it then, and
/// the counts of calls that failed and that took nothing.
type Writer = (usize, u64, &'static str, &'static str, (u64, u64));

const WRITERS: &[Writer] = &[
    (1, 100, "whole", "hello", (0, 0)),
    (0, 100, "nothing taken", "", (0, 1)),
    (2, 2, "broken", "hell", (1, 0)),
];

/// What becomes of a text.
fn outcome(w: &mut Counting<Slow>, text: &[u8]) -> &'static str {
    match &put(w, text) {
        Ok(()) => "whole",
        Err(WriteFault::Zero) => "nothing taken",
        Err(WriteFault::Writer(e)) if e.kind() == io::ErrorKind::BrokenPipe => "broken",
        Err(_) => "another fault",
    }
}

fn has_counts(w: &Counting<Slow>, counts: (u64, u64)) -> bool {
    w.failed() == counts.0 && w.empty() == counts.1
}

impl Row for Writer {
    /// Whether `hello` is written as the row says, and then nothing, which needs no call.
    fn holds(&self, alloc: Global) -> bool {
        let mut w = slow_writer(alloc, self.0, self.1);
        outcome(&mut w, b"hello") == self.2
            && outcome(&mut w, b"") == "whole"
            && has_counts(&w, self.4)
            && w.into_inner().taken.as_slice() == self.3.as_bytes()
    }
}

/// That one write of no bytes counts as none that takes nothing.
fn is_not_counted(alloc: Global) -> bool {
    let mut w = slow_writer(alloc, 0, 100);
    w.write(b"").is_ok() && has_counts(&w, (0, 0))
}

#[test]
fn writers_that_fail(rt: HostRuntime) {
    check_rows(&rt, rt.alloc(), WRITERS);
    check(&rt, is_not_counted(rt.alloc()), "no bytes");
}

/// What one write of a piece answers: how many bytes it took, or none where it was broken.
fn answer(w: &mut Counting<Slow>, piece: &[u8]) -> Option<usize> {
    match &w.write(piece) {
        Ok(n) => Some(*n),
        Err(e) if e.kind() == io::ErrorKind::BrokenPipe => None,
        Err(_) => Some(usize::MAX),
    }
}

/// That each write is one of the writer within, of which two are good and take two bytes each.
fn are_single(alloc: Global) -> bool {
    let mut w = slow_writer(alloc, 2, 2);
    answer(&mut w, b"hello") == Some(2)
        && answer(&mut w, b"llo") == Some(2)
        && answer(&mut w, b"o") == None
        && has_counts(&w, (1, 0))
        && w.into_inner().taken.as_slice() == b"hell".as_slice()
}

#[test]
fn each_write_is_one_write_within(rt: HostRuntime) {
    check(&rt, are_single(rt.alloc()), "single writes");
}
