//! Tests of the program: what runs come to on whole inputs, and where readers and writers are short, fail or never end.

mod each_write;
mod faults;
mod options;
mod outcome;
mod reads;
mod rows;
mod stopping;
