//! Writers that are short or fail.
use fluent_bundle::{Counting, WriteFault};
use std::alloc::Global;
use std::io;
use std::io::Write;

/// How many bytes a writer takes at once and in all, and whether it fails then or takes none.
#[derive(Clone, Copy, Drop)]
pub struct How {
    pub at_once: usize,
    pub in_all: usize,
    pub fails: bool,
}

/// A writer that does so.
#[derive(Drop)]
pub struct Narrow {
    pub taken: Vec<u8>,
    room: usize,
    at_once: usize,
    fails: bool,
}

impl Write for Narrow {
    fn write(&mut self, piece: &[u8]) -> io::Result<usize> {
        let n = piece.len().min(self.at_once).min(self.room);
        if self.room == 0 && self.fails {
            return Err(io::Error::from(io::ErrorKind::BrokenPipe));
        }
        match self.taken.extend_from_slice(&piece[..n]) {
            Ok(()) => {
                self.room -= n;
                Ok(n)
            }
            Err(_) => Err(io::Error::from(io::ErrorKind::OutOfMemory)),
        }
    }

    fn flush(&mut self) -> io::Result<()> {
        Ok(())
    }
}

/// Such a writer, which has taken nothing.
pub fn writer_of(alloc: Global, how: How) -> Counting<Narrow> {
    Counting::new(Narrow {
        taken: Vec::new(alloc),
        room: how.in_all,
        at_once: how.at_once,
        fails: how.fails,
    })
}

/// How a call may end.
#[derive(Clone, Copy, Drop, PartialEq, Eq)]
pub enum End {
    Whole,
    Nothing,
    Memory,
    Writer,
    Other,
    Zero,
}

/// How a call ended; a writer that fails for want of memory counts as memory. The error that is answered is the one that the
/// writers here fail with, a broken pipe; with another the call would end as no row says.
pub fn end_of(outcome: Result<(), WriteFault>) -> End {
    match outcome {
        Ok(()) => End::Whole,
        Err(WriteFault::Memory) => End::Memory,
        Err(WriteFault::Writer(error)) => match error.kind() {
            io::ErrorKind::OutOfMemory => End::Memory,
            io::ErrorKind::BrokenPipe => End::Writer,
            _ => End::Other,
        },
        Err(WriteFault::Zero) => End::Zero,
    }
}

/// How a call by id ended: with nothing where there is nothing to write.
pub fn end_by_id(outcome: Result<bool, WriteFault>) -> End {
    match outcome {
        Ok(true) => End::Whole,
        Ok(false) => End::Nothing,
        Err(fault) => end_of(Err(fault)),
    }
}
