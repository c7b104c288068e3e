//! The calls of libfluent. What is unsafe in this crate stands here alone: around it texts and buffers are slices, and a bundle
//! is open from its making until it is dropped.
#![allow(unsafe_code)]

use std::ffi::c_void;
use std::ptr::{null_mut, NonNull};

/// What a call answers, as `enum fluent_status` of fluent.h.
#[derive(Clone, Copy, Debug, Eq, PartialEq)]
pub(crate) struct Status(u8);

impl Status {
    pub(crate) const OK: Self = Self(0);
    pub(crate) const TOO_SMALL: Self = Self(1);
    pub(crate) const NO_MEMORY: Self = Self(2);
    pub(crate) const NO_LANGUAGE: Self = Self(5);
    pub(crate) const ASKS: Self = Self(14);
}

/// `struct fluent_bundle`.
#[repr(C)]
struct Raw {
    at: *mut u8,
    is_open: bool,
    /// What programs in C register; nothing is registered here.
    asks: *mut c_void,
}

/// `struct fluent_lengths`.
#[repr(C)]
#[derive(Clone, Copy, Debug, Default)]
pub(crate) struct Lengths {
    pub(crate) text: usize,
    pub(crate) errors: usize,
}

extern "C" {
    fn fluent_open_bare(bundle: *mut Raw, language: *const u8, length: usize, isolate: bool) -> u8;
    fn fluent_add(bundle: *mut Raw, source: *const u8, length: usize) -> u8;
    fn fluent_add_overriding(bundle: *mut Raw, source: *const u8, length: usize) -> u8;
    fn fluent_add_builtins(bundle: *mut Raw) -> u8;
    fn fluent_declare_function(bundle: *mut Raw, id: *const u8, length: usize, over: bool) -> u8;
    fn fluent_declare_formatter(bundle: *mut Raw, on: bool) -> u8;
    fn fluent_declare_transform(bundle: *mut Raw, on: bool) -> u8;
    fn fluent_report(bundle: *mut Raw, out: *mut u8, room: usize, length: *mut usize) -> u8;
    fn fluent_ids(bundle: *mut Raw, out: *mut u8, room: usize, length: *mut usize) -> u8;
    fn fluent_attributes(
        bundle: *mut Raw,
        id: *const u8,
        id_length: usize,
        out: *mut u8,
        room: usize,
        length: *mut usize,
    ) -> u8;
    fn fluent_has(bundle: *mut Raw, id: *const u8, id_length: usize) -> u8;
    fn fluent_find(
        bundle: *mut Raw,
        id: *const u8,
        id_length: usize,
        attribute: *const u8,
        attribute_length: usize,
    ) -> u8;
    fn fluent_format_asking(
        bundle: *mut Raw,
        id: *const u8,
        id_length: usize,
        attribute: *const u8,
        attribute_length: usize,
        arguments: *const u8,
        arguments_length: usize,
        answers: *const u8,
        answers_length: usize,
        out: *mut u8,
        out_room: usize,
        err: *mut u8,
        err_room: usize,
        lengths: *mut Lengths,
    ) -> u8;
    fn fluent_close(bundle: *mut Raw);
}

/// What is asked of a bundle: a message or an attribute of it, with arguments and answers as records.
pub(crate) struct Asked<'a> {
    pub(crate) id: &'a str,
    pub(crate) attribute: &'a str,
    pub(crate) arguments: &'a [u8],
    pub(crate) answers: &'a [u8],
}

/// A bundle of the library, which is open.
pub(crate) struct Bundle {
    /// A box of its own, since a bundle is in one place until it is closed.
    raw: NonNull<Raw>,
}

// SAFETY: fluent.h says that a bundle may go from thread to thread. It is asked by one of them at a time, since every call here
// takes `&mut self` and `Bundle` is not `Sync`.
unsafe impl Send for Bundle {}

impl Drop for Bundle {
    fn drop(&mut self) {
        // SAFETY: `raw` is the box that `open` made, and nobody else has it. It is closed by fluent_close alone, and once.
        unsafe {
            fluent_close(self.raw.as_ptr());
            drop(Box::from_raw(self.raw.as_ptr()));
        }
    }
}

impl Bundle {
    /// A bundle for the plural rules of a language, without functions, and what opening answered: OK, or NO_LANGUAGE for one
    /// whose numbers are all `other`. `Err` where no bundle could be opened.
    pub(crate) fn open(language: &str, isolate: bool) -> Result<(Self, Status), Status> {
        let closed = Raw {
            at: null_mut(),
            is_open: false,
            asks: null_mut(),
        };
        let raw = NonNull::from(Box::leak(Box::new(closed)));
        // From here on the box is freed by `drop`, which may close what is closed.
        let bundle = Self { raw };
        // SAFETY: the bundle is closed and stays where it is, and the text is as long as is said.
        let status =
            unsafe { fluent_open_bare(raw.as_ptr(), language.as_ptr(), language.len(), isolate) };
        match Status(status) {
            status @ (Status::OK | Status::NO_LANGUAGE) => Ok((bundle, status)),
            status => Err(status),
        }
    }

    /// Adds a source, over what has its ids or not.
    pub(crate) fn add(&mut self, source: &str, over: bool) -> Status {
        let add = if over {
            fluent_add_overriding
        } else {
            fluent_add
        };
        // SAFETY: the bundle is open, and the text, of which a copy is taken, is as long as is said.
        Status(unsafe { add(self.raw.as_ptr(), source.as_ptr(), source.len()) })
    }

    /// Adds the function NUMBER.
    pub(crate) fn add_builtins(&mut self) -> Status {
        // SAFETY: the bundle is open.
        Status(unsafe { fluent_add_builtins(self.raw.as_ptr()) })
    }

    /// Declares a function of the program, where its id is free.
    pub(crate) fn declare_function(&mut self, id: &str) -> Status {
        // SAFETY: the bundle is open, and the text is as long as is said.
        Status(unsafe { fluent_declare_function(self.raw.as_ptr(), id.as_ptr(), id.len(), false) })
    }

    /// Says whether each value that is shown is asked about.
    pub(crate) fn declare_formatter(&mut self, on: bool) -> Status {
        // SAFETY: the bundle is open.
        Status(unsafe { fluent_declare_formatter(self.raw.as_ptr(), on) })
    }

    /// Says whether each text element is asked about.
    pub(crate) fn declare_transform(&mut self, on: bool) -> Status {
        // SAFETY: the bundle is open.
        Status(unsafe { fluent_declare_transform(self.raw.as_ptr(), on) })
    }

    /// Whether there is a message of the id.
    pub(crate) fn has(&mut self, id: &str) -> bool {
        // SAFETY: the bundle is open, and the text is as long as is said.
        Status(unsafe { fluent_has(self.raw.as_ptr(), id.as_ptr(), id.len()) }) == Status::OK
    }

    /// Whether there is a message of the id with a value.
    pub(crate) fn has_value(&mut self, id: &str) -> bool {
        // SAFETY: the bundle is open, the text is as long as is said, and a length of 0 says that there is no attribute.
        let status =
            unsafe { fluent_find(self.raw.as_ptr(), id.as_ptr(), id.len(), id.as_ptr(), 0) };
        Status(status) == Status::OK
    }

    /// What was passed over in the source that was added last.
    pub(crate) fn report(&mut self, out: &mut [u8]) -> (Status, usize) {
        let mut length = 0;
        // SAFETY: the bundle is open, the buffer has the room that is said, and the length is a place of its own.
        let status =
            unsafe { fluent_report(self.raw.as_ptr(), out.as_mut_ptr(), out.len(), &mut length) };
        (Status(status), length)
    }

    /// The ids of all messages.
    pub(crate) fn ids(&mut self, out: &mut [u8]) -> (Status, usize) {
        let mut length = 0;
        // SAFETY: as for `report`.
        let status =
            unsafe { fluent_ids(self.raw.as_ptr(), out.as_mut_ptr(), out.len(), &mut length) };
        (Status(status), length)
    }

    /// The names of the attributes of a message.
    pub(crate) fn attributes(&mut self, id: &str, out: &mut [u8]) -> (Status, usize) {
        let mut length = 0;
        // SAFETY: as for `report`; the text is as long as is said.
        let status = unsafe {
            fluent_attributes(
                self.raw.as_ptr(),
                id.as_ptr(),
                id.len(),
                out.as_mut_ptr(),
                out.len(),
                &mut length,
            )
        };
        (Status(status), length)
    }

    /// Formats what is asked, or asks in turn.
    pub(crate) fn format(
        &mut self,
        asked: &Asked<'_>,
        out: &mut [u8],
        err: &mut [u8],
    ) -> (Status, Lengths) {
        let mut lengths = Lengths::default();
        // SAFETY: the bundle is open, each text is as long and each buffer has the room that is said; the buffers and the
        // lengths are borrowed for writing, so they lie apart from all else.
        let status = unsafe {
            fluent_format_asking(
                self.raw.as_ptr(),
                asked.id.as_ptr(),
                asked.id.len(),
                asked.attribute.as_ptr(),
                asked.attribute.len(),
                asked.arguments.as_ptr(),
                asked.arguments.len(),
                asked.answers.as_ptr(),
                asked.answers.len(),
                out.as_mut_ptr(),
                out.len(),
                err.as_mut_ptr(),
                err.len(),
                &mut lengths,
            )
        };
        (Status(status), lengths)
    }
}
