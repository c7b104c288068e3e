//! Tests by hand, by layer: the reader, what bundles are made of, findings, bundles and chains by their calls, and the program.

mod check;
mod internals;
mod lint;
mod public_api;
mod show_cli;
mod syntax;
