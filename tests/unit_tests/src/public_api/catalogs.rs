//! Texts in two languages, and what is wrong with their sources; where an allocation fails too.
use crate::check::{check, check_same};
use crate::public_api::common::{empty, lines};
use crate::public_api::lists::two;
use crate::public_api::taken::{BOTH, Row};
use fluent_bundle::{EnglishPlurals, FluentError, FluentResource, NoCustom, ParserError};
use fluent_catalog::{Catalog, Report, add_source, read_source};
use std::alloc::{AllocError, Global};
use std::borrow::CowStr;
use std::process::Abort;
use std::test::Fail;
use test_contracts::own::{Bracketed, Own, Upper};

/// Texts in some languages.
type Texts<'r> = Catalog<'r, 'static, EnglishPlurals, NoCustom, Own, Bracketed, Upper>;

/// The tags of both sources of the tests of chains.
const TAGS: [&str; 2] = ["pl", "en"];

fn catalog_of<'r>(
    alloc: Global,
    resources: &'r [FluentResource<'static>],
    reports: &mut Vec<Report<'static>>,
) -> Result<Texts<'r>, AllocError> {
    let mut catalog = Catalog::new(alloc);
    for (tag, resource) in TAGS.iter().zip(resources) {
        let mut bundle = empty(alloc);
        add_source(&mut bundle, *tag, resource, reports)?;
        catalog.push(*tag, bundle)?;
    }
    Ok(catalog)
}

fn format(
    catalog: &Texts<'_>,
    row: &Row,
    errors: &mut Vec<FluentError>,
) -> Result<CowStr<'static>, AllocError> {
    match row.1 {
        None => catalog.format_value(row.0, None, errors),
        Some(name) => catalog.format_attribute(row.0, name, None, errors),
    }
}

/// Whether a part was shown, as this text.
fn is_shown(rt: &impl Abort, shown: Result<CowStr<'_>, AllocError>, text: &str) -> bool {
    match shown {
        Ok(found) => {
            check_same(rt, found.as_str(), text);
            true
        }
        Err(AllocError) => false,
    }
}

/// That errors are these lines, or a beginning of them where a call failed for want of memory.
fn stand(
    rt: &impl Abort,
    alloc: Global,
    errors: &[FluentError],
    wanted: &str,
    is_whole: bool,
) -> Result<(), AllocError> {
    let found = lines(alloc, errors)?;
    if is_whole {
        check_same(rt, found.as_str(), wanted);
    } else {
        check(rt, wanted.starts_with(found.as_str()), wanted);
    }
    Ok(())
}

/// `false` where an allocation fails, which leaves a beginning of the errors.
fn shows_once(
    rt: &impl Abort,
    alloc: Global,
    catalog: &Texts<'_>,
    row: &Row,
) -> Result<bool, AllocError> {
    let mut errors = Vec::new(alloc);
    let is_whole = is_shown(rt, format(catalog, row, &mut errors), row.2);
    stand(rt, alloc, errors.as_slice(), row.3, is_whole)?;
    Ok(is_whole)
}

fn shows(rt: &impl Abort, alloc: Global, catalog: &Texts<'_>) -> Result<(), AllocError> {
    for row in BOTH {
        if !shows_once(rt, alloc, catalog, row)? {
            check(rt, shows_once(rt, alloc, catalog, row)?, row.2);
        }
    }
    Ok(())
}

/// An id, the name of an attribute or none, and the language that answers.
type Answer = (&'static str, Option<&'static str>, Option<&'static str>);

const ANSWERS: &[Answer] = &[
    ("a", None, Some("pl")),
    ("b", None, Some("en")),
    ("c", None, None),
    ("k", Some("t"), Some("pl")),
    ("k", Some("u"), Some("en")),
    ("a", Some("u"), None),
];

fn answers(rt: &impl Abort, catalog: &Texts<'_>) {
    for row in ANSWERS {
        let found = match row.1 {
            None => catalog.find_value(row.0),
            Some(name) => catalog.find_attribute(row.0, name),
        };
        check_same(rt, found.unwrap_or(""), row.2.unwrap_or(""));
    }
}

/// Run with each allocation failing in turn.
#[test]
fn a_catalog_answers_by_its_first_language(rt: HostRuntime) -> Result<(), Fail> {
    let resources = two(rt.alloc())?;
    let mut reports = Vec::new(rt.alloc());
    let catalog = catalog_of(rt.alloc(), &resources, &mut reports)?;
    check(&rt, reports.is_empty(), "nothing is wrong");
    check(&rt, catalog.languages().len() == 2, "two languages");
    check(&rt, catalog.chain().has_value("b"), "b");
    answers(&rt, &catalog);
    shows(&rt, rt.alloc(), &catalog)?;
    Ok(())
}

/// Junk, and an id that comes twice.
const WRONG: &str = "a =\nb = 1\nb = 2\n-c\n";

/// The ranges that a report has, if it is one of this language.
fn ranges_in(report: Option<&Report<'_>>, tag: &str) -> Option<(ParserError, usize)> {
    match report {
        Some(Report::Unreadable(found, errors)) if *found == tag => {
            Some((*errors.first()?, errors.len()))
        }
        _ => None,
    }
}

/// The texts of what a report says was left, if it is one of this language.
fn left_in(
    alloc: Global,
    report: Option<&Report<'_>>,
    tag: &str,
) -> Result<Option<String>, AllocError> {
    match report {
        Some(Report::Left(found, errors)) if *found == tag => {
            Ok(Some(lines(alloc, errors.as_slice())?))
        }
        _ => Ok(None),
    }
}

/// Where an allocation fails it is read again.
fn read(
    alloc: Global,
    reports: &mut Vec<Report<'static>>,
) -> Result<FluentResource<'static>, AllocError> {
    match read_source(alloc, "xx", WRONG, reports) {
        Ok(resource) => Ok(resource),
        Err(AllocError) => read_source(alloc, "xx", WRONG, reports),
    }
}

/// Where an allocation fails it is added again.
fn add(
    alloc: Global,
    resource: &FluentResource<'static>,
    reports: &mut Vec<Report<'static>>,
) -> Result<(), AllocError> {
    let mut bundle = empty(alloc);
    match add_source(&mut bundle, "xx", resource, reports) {
        Ok(()) => Ok(()),
        Err(AllocError) => add_source(&mut bundle, "xx", resource, reports),
    }
}

/// Run with each allocation failing in turn.
#[test]
fn what_is_wrong_is_reported_by_language(rt: HostRuntime) -> Result<(), Fail> {
    let mut reports = Vec::new(rt.alloc());
    let resource = read(rt.alloc(), &mut reports)?;
    let first = Some((ParserError { start: 0, end: 4 }, 2));
    check(
        &rt,
        ranges_in(reports.first(), "xx") == first,
        "two can't be read",
    );
    add(rt.alloc(), &resource, &mut reports)?;
    check(&rt, reports.len() == 2, "two reports");
    let left = left_in(rt.alloc(), reports.get(1), "xx")?;
    let wanted = "Attempt to override an existing message: \"b\".\n";
    check_same(&rt, left.as_ref().map_or("", |text| text.as_str()), wanted);
    Ok(())
}
