//! Reports on each fixture of the folder: a line a file, with a text for each line that is wrong, and their sum.
//!
//! A fixture that is wrong on purpose has the report that must come beside it, as `damaged.report` of `damaged.ftl`,
//! and isn't counted.

mod bundles;
mod chunks;
mod damaged;
mod fixture;
mod lines;
mod reader;
mod report;
mod run;
mod settings;
mod texts;
mod values;
mod ways;
mod writers;

use crate::report::{Counts, Report};
use crate::run::run;
use std::io::ErrorKind;
use std::{fs, io};

/// The names of the folder's fixtures, without their ending, in order.
fn names(rt: &HostRuntime) -> io::Result<Vec<String>> {
    let mut names = Vec::new(rt.alloc());
    for entry in fs::read_dir(rt, ".")? {
        let entry = entry?;
        if let Some(name) = entry.file_name().strip_suffix(".ftl") {
            names.push(String::from_str(rt.alloc(), name)?)?;
        }
    }
    names.sort()?;
    Ok(names)
}

/// The report that must come of a fixture that is wrong on purpose; `None` of any other.
fn wanted(rt: &HostRuntime, name: &str) -> io::Result<Option<String>> {
    let file = format!(in rt.alloc(); "{name}.report")?;
    match fs::read_to_string(rt, file.as_str()) {
        Ok(text) => Ok(Some(text)),
        Err(error) if error.kind() == ErrorKind::NotFound => Ok(None),
        Err(error) => Err(error),
    }
}

/// Says how a fixture did, and counts it.
fn say(rt: &HostRuntime, report: &Report<'_>, name: &str) -> io::Result<Counts> {
    print!(rt; "{}", report.text)?;
    println!(rt; "{name}.ftl: {}", report.counts)?;
    Ok(report.counts)
}

/// Reports on a fixture, and counts it where it isn't wrong on purpose.
fn report_on(rt: &HostRuntime, name: &str) -> io::Result<Counts> {
    let file = format!(in rt.alloc(); "{name}.ftl")?;
    let text = fs::read_to_string(rt, file.as_str())?;
    let report = run(rt.alloc(), file.as_str(), text.as_str())?;
    match wanted(rt, name)? {
        Some(wanted) if wanted.as_str() == report.text.as_str() => {
            println!(rt; "{name}.ftl: the report that is wanted")?;
            Ok(Counts::default())
        }
        _ => say(rt, &report, name),
    }
}

fn main(rt: HostRuntime) -> io::Result<()> {
    let mut counts = Counts::default();
    for name in &names(&rt)? {
        counts = counts.with(report_on(&rt, name.as_str())?);
    }
    println!(rt; "all: {counts}")
}
