//! A writer that stops at one of its writes, and counts those that come after it.

use std::alloc::Global;
use std::io;
use std::io::{ErrorKind, Write};

/// How a writer stops: the write fails with this kind of error, or takes no byte where there is none; and whether the
/// write before it takes a single byte.
pub type Fault = (Option<ErrorKind>, bool);

/// The ways to stop.
pub const FAULTS: &[Fault] = &[
    (Some(ErrorKind::Interrupted), false),
    (Some(ErrorKind::WouldBlock), false),
    (Some(ErrorKind::OutOfMemory), false),
    (Some(ErrorKind::BrokenPipe), false),
    (Some(ErrorKind::Other), false),
    (Some(ErrorKind::Interrupted), true),
    (None, false),
    (None, true),
];

/// A writer that takes whole pieces until it stops. It takes what comes then, and counts the writes.
#[derive(Drop)]
pub struct Stopping {
    pub taken: Vec<u8>,
    /// How many writes are left before it stops.
    left: u64,
    fault: Fault,
    pub has_stopped: bool,
    /// How many writes came after.
    pub later: u64,
}

impl Write for Stopping {
    fn write(&mut self, piece: &[u8]) -> io::Result<usize> {
        if self.has_stopped {
            self.later = self.later.saturating_add(1);
        } else if self.left == 0 {
            self.has_stopped = true;
            return match self.fault.0 {
                Some(kind) => Err(io::Error::from(kind)),
                None => Ok(0),
            };
        } else {
            self.left -= 1;
        }
        let is_last = self.left == 0 && !self.has_stopped;
        let most = if is_last && self.fault.1 {
            1
        } else {
            piece.len()
        };
        let n = most.min(piece.len());
        self.taken.extend_from_slice(&piece[..n])?;
        Ok(n)
    }

    fn flush(&mut self) -> io::Result<()> {
        Ok(())
    }
}

/// A writer that stops so after so many writes.
pub fn stops_after(alloc: Global, left: u64, fault: Fault) -> Stopping {
    Stopping {
        taken: Vec::new(alloc),
        left,
        fault,
        has_stopped: false,
        later: 0,
    }
}
