//! Tests of findings: in sources, each kind once, and in trees made by hand, such as no source is read as.

mod common;
mod linted;
mod linter;
mod selects;
