//! The report on a fixture.
use crate::bundles::{Bundle, all, pattern_in, read_all};
use crate::damaged;
use crate::fixture::{Fixture, Row, Told, Wanted};
use crate::reader::read;
use crate::report::Report;
use crate::values::{Args, arguments};
use crate::ways::{are_told, call_by_id, call_for, finds_nothing, hold, stops_after};
use fluent_bundle::ast::Pattern;
use fluent_fallback::{BundleRef, Chain};
use std::alloc::{AllocError, Global};
use test_contracts::fixtures::{Answer, Plurals, Shows, Star};
use test_contracts::own::Upper;

/// A bundle of a chain.
type Linked<'b, 'r, 's> = BundleRef<'b, 'r, 's, Plurals, Star, Answer<'s>, Shows, Upper>;

/// The first of these bundles that has the value or the attribute of a row, and its pattern there.
fn first_with<'b, 'r, 's>(
    links: &[Linked<'b, 'r, 's>],
    row: &Row<'s>,
) -> Option<(&'b Bundle<'r, 's, 's>, &'r Pattern<'s>)> {
    for link in links {
        if let Some(pattern) = pattern_in(link.0, row.id, row.attribute) {
            return Some((link.0, pattern));
        }
    }
    None
}

// ---- calls

/// Formats by a chain.
fn chained<'s>(
    alloc: Global,
    links: &[Linked<'_, '_, 's>],
    row: &Row<'s>,
    told: &Told,
    args: Option<&Args<'s>>,
    report: &mut Report<'_>,
) -> Result<(), AllocError> {
    let chain = Chain::new(links);
    let mut errors = Vec::new(alloc);
    let text = match row.attribute {
        None => chain.format_value(row.id, args, &mut errors)?,
        Some(name) => chain.format_attribute(row.id, name, args, &mut errors)?,
    };
    report.same(told.formatted(), text.as_str(), "a chain")?;
    are_told(alloc, errors.as_slice(), told, "errors of a chain", report)
}

/// Whether a chain says that it has what a row asks for.
fn has(links: &[Linked<'_, '_, '_>], row: &Row<'_>) -> bool {
    let chain = Chain::new(links);
    match row.attribute {
        None => chain.has_value(row.id),
        Some(name) => chain.has_attribute(row.id, name),
    }
}

/// Each way of a call with these arguments.
fn gives<'s>(
    alloc: Global,
    links: &[Linked<'_, '_, 's>],
    row: &Row<'s>,
    told: &Told,
    args: Option<&Args<'s>>,
    report: &mut Report<'_>,
) -> Result<(), AllocError> {
    let Some((bundle, pattern)) = first_with(links, row) else {
        return report.holds(false, "no such value");
    };
    let asked = call_for(bundle, pattern, args);
    let by_id = call_by_id(bundle, row.id, row.attribute, args);
    if told.is_full {
        stops_after(alloc, &asked, told, report)?;
        return stops_after(alloc, &by_id, told, report);
    }
    hold(alloc, &asked, told, report)?;
    hold(alloc, &by_id, told, report)?;
    report.holds(has(links, row), "a chain has no such value")?;
    chained(alloc, links, row, told, args, report)
}

/// A call.
fn is_told<'s>(
    alloc: Global,
    links: &[Linked<'_, '_, 's>],
    row: &Row<'s>,
    told: &Told,
    report: &mut Report<'_>,
) -> Result<(), AllocError> {
    let Some(args) = arguments(alloc, row.arguments)? else {
        return report.holds(false, "no such arguments");
    };
    if row.arguments.is_empty() {
        gives(alloc, links, row, told, None, report)?;
    }
    gives(alloc, links, row, told, Some(&args), report)
}

// ---- what isn't there

/// That there is no such value or attribute.
fn is_nothing<'s>(
    alloc: Global,
    links: &[Linked<'_, '_, 's>],
    row: &Row<'s>,
    report: &mut Report<'_>,
) -> Result<(), AllocError> {
    let is_there = has(links, row) || first_with(links, row).is_some();
    report.holds(!is_there, "there is such a value")?;
    for link in links {
        let asked = call_by_id(link.0, row.id, row.attribute, None);
        finds_nothing(alloc, &asked, report)?;
    }
    let told = Told {
        text: String::from_str(alloc, row.id)?,
        formatted: None,
        errors: String::new(alloc),
        is_full: false,
    };
    chained(alloc, links, row, &told, None, report)
}

/// Whether no bundle has a message of this id.
fn is_absent(links: &[Linked<'_, '_, '_>], id: &str) -> bool {
    for link in links {
        if link.0.has_message(id) || link.0.get_message(id).is_some() {
            return false;
        }
    }
    true
}

/// The names of a message's attributes, with blanks between.
fn names_of(
    alloc: Global,
    bundle: &Bundle<'_, '_, '_>,
    id: &str,
) -> Result<Option<String>, AllocError> {
    let Some(message) = bundle.get_message(id) else {
        return Ok(None);
    };
    let mut names = String::new(alloc);
    for attribute in message.attributes() {
        if !names.is_empty() {
            names.push_str(" ")?;
        }
        names.push_str(attribute.id())?;
    }
    Ok(Some(names))
}

/// That the first bundle with a message has attributes of these names.
fn has_names(
    alloc: Global,
    links: &[Linked<'_, '_, '_>],
    row: &Row<'_>,
    wanted: &str,
    report: &mut Report<'_>,
) -> Result<(), AllocError> {
    for link in links {
        if let Some(names) = names_of(alloc, link.0, row.id)? {
            return report.same(wanted, names.as_str(), "attributes");
        }
    }
    report.holds(false, "no such message")
}

// ---- rows

/// A row of these bundles.
fn holds<'s>(
    alloc: Global,
    links: &[Linked<'_, '_, 's>],
    row: &Row<'s>,
    report: &mut Report<'_>,
) -> Result<(), AllocError> {
    report.at(row.line);
    report.call();
    match &row.wanted {
        Wanted::Told(told) => is_told(alloc, links, row, told, report),
        Wanted::Nothing => is_nothing(alloc, links, row, report),
        Wanted::Absent => report.holds(is_absent(links, row.id), "there is such a message"),
        Wanted::Attributes(names) => has_names(alloc, links, row, *names, report),
    }
}

/// The bundles of a chain up to one of them.
fn links_to<'b, 'r, 's>(
    alloc: Global,
    fixture: &Fixture<'s>,
    bundles: &'b [Bundle<'r, 's, 's>],
    last: usize,
) -> Result<Vec<Linked<'b, 'r, 's>>, AllocError> {
    let mut links = Vec::new(alloc);
    let upto = last.saturating_add(1);
    for (described, bundle) in fixture.bundles.iter().zip(bundles).take(upto) {
        if !described.is_link {
            links.clear();
        }
        links.push(BundleRef(bundle))?;
    }
    Ok(links)
}

/// The rows of a fixture.
fn rows_hold<'r, 's>(
    alloc: Global,
    fixture: &Fixture<'s>,
    bundles: &[Bundle<'r, 's, 's>],
    report: &mut Report<'_>,
) -> Result<(), AllocError> {
    for row in &fixture.rows {
        let links = links_to(alloc, fixture, bundles, row.bundle)?;
        holds(alloc, links.as_slice(), row, report)?;
    }
    Ok(())
}

/// The lines that can't be read.
fn put_unread(fixture: &Fixture<'_>, report: &mut Report<'_>) -> Result<(), AllocError> {
    for line in &fixture.unread {
        report.at(*line);
        report.holds(false, "this line can't be read")?;
    }
    Ok(())
}

/// The report on a fixture of a name.
pub fn run<'n>(alloc: Global, name: &'n str, text: &str) -> Result<Report<'n>, AllocError> {
    let mut report = Report::new(alloc, name);
    let fixture = read(alloc, text)?;
    put_unread(&fixture, &mut report)?;
    let sources = read_all(alloc, &fixture)?;
    let bundles = all(alloc, &fixture, sources.as_slice(), &mut report)?;
    rows_hold(alloc, &fixture, bundles.as_slice(), &mut report)?;
    damaged::hold(alloc, &fixture, &mut report)?;
    Ok(report)
}
