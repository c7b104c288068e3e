//! The reader: what it reads, with Junk or without.
use fluent_syntax::ast::Resource;
use fluent_syntax::{ParseFault, ParserError, parse_runtime};
use std::alloc::{AllocError, Global};

/// The tree of a source, and its errors where it has Junk.
pub type Found<'s> = Result<(Resource<'s>, Option<Vec<ParserError>>), AllocError>;

pub fn read<'s>(alloc: Global, source: &'s str) -> Found<'s> {
    match parse_runtime(alloc, source) {
        Ok(resource) => Ok((resource, None)),
        Err(ParseFault::Parser(resource, errors)) => Ok((resource, Some(errors))),
        Err(ParseFault::Memory) => Err(AllocError),
    }
}
