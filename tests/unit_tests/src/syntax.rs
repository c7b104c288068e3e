//! Tests of the reader: sources with their trees, reasons of Junk, escapes, equality, references, and writers that fail.

mod depth;
mod equality;
mod escapes;
mod reading;
mod reasons;
mod references;
mod shown;
mod sizes;
mod sources;
mod writers;
