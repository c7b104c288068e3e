//! Tests of what bundles are made of: numbers and slots of ids, links of patterns and their classes; numbers, operands and
//! plural rules; values, arguments, functions and reports.

mod args;
mod common;
mod contents;
mod decimals;
mod errors;
mod function;
mod languages;
mod linked;
mod negotiated;
mod numbers;
mod options;
mod plurals;
mod rules;
mod same;
mod slots;
mod values;
mod whole;
mod words;
