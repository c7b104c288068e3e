//! Asks the plural rules of every language for the samples that the Unicode CLDR names.
//!
//! A line of standard input is a rule's tags, `cardinal` or `ordinal`, its category and its samples,
//! with tabs between them and spaces between tags and between samples. A line is written for each
//! sample that its language puts into another category, and for the samples of a rule in compact
//! notation, as `1c6`: they are left out, since a number here has no exponent. The last line counts.

mod row;
mod tally;

use fluent_plural_rules::{RuleTexts, cldr_plurals, rules_for};
use row::{Row, is_compact};
use std::alloc::Global;
use std::io;
use tally::Tally;

/// The plural rules of a language.
fn source_of(alloc: Global, tag: &str) -> Option<RuleTexts> {
    let rules = rules_for(cldr_plurals(), tag)?;
    RuleTexts::parse(alloc, rules.cardinal, rules.ordinal).ok()
}

/// Asks for each sample of a rule in one of its languages.
fn ask(rt: &HostRuntime, row: &Row, tag: &str, tally: &mut Tally) -> io::Result<()> {
    let source = source_of(rt.alloc(), tag);
    for sample in row.samples.split(' ') {
        if is_compact(sample) {
            tally.compact();
        } else if source
            .as_ref()
            .is_some_and(|rules| row.is_selected(rules, sample))
        {
            tally.right();
        } else {
            tally.wrong();
            println!(rt; "wrong: {tag} {sample}")?;
        }
    }
    Ok(())
}

/// Names the samples of a rule that are left out.
fn name_compact(rt: &HostRuntime, row: &Row) -> io::Result<()> {
    if row.samples.split(' ').any(is_compact) {
        print!(rt; "left out as compact ({}):", row.tags)?;
        for sample in row.samples.split(' ').filter(|sample| is_compact(sample)) {
            print!(rt; " {sample}")?;
        }
        println!(rt; "")?;
    }
    Ok(())
}

fn main(rt: HostRuntime) -> io::Result<()> {
    let input = io::read_to_string(rt.alloc(), rt.stdin())?;
    let mut tally = Tally::default();
    for line in input.as_str().lines() {
        match Row::of(line) {
            Some(row) => {
                for tag in row.tags.split(' ') {
                    ask(&rt, &row, tag, &mut tally)?;
                }
                name_compact(&rt, &row)?;
            }
            None => println!(rt; "unreadable: {line}")?,
        }
    }
    println!(rt; "{tally}")
}
