//! The bundles of a fixture.
use crate::fixture::{Described, Fixture, Part};
use crate::report::Report;
use crate::settings::{Rules, Settings};
use fluent_bundle::ast::Pattern;
use fluent_bundle::bundle::AddFault;
use fluent_bundle::{FluentBundle, FluentError, FluentResource, ParserError, TryNewFault};
use fluent_plural_rules::{RuleFault, RuleTexts, cldr_plurals, rules_for};
use std::alloc::{AllocError, Global};
use test_contracts::fixtures::{Answer, Plurals, Shows, Star};
use test_contracts::own::Upper;

/// A bundle with the objects of a fixture, which outlives the bundle's sources.
pub type Bundle<'r, 's, 'f> = FluentBundle<'r, 's, Plurals, Star, Answer<'f>, Shows, Upper>;

// ---- resources

/// A source as it is read, and the range of each Junk.
#[derive(Drop)]
pub struct Source<'s> {
    pub resource: FluentResource<'s>,
    pub errors: Vec<ParserError>,
}

/// Reads a source, with Junk or without.
pub fn read<'s>(alloc: Global, source: &'s str) -> Result<Source<'s>, AllocError> {
    match FluentResource::try_new(alloc, source) {
        Ok(resource) => Ok(Source {
            resource,
            errors: Vec::new(alloc),
        }),
        Err(TryNewFault::Parser(resource, errors)) => Ok(Source { resource, errors }),
        Err(TryNewFault::Memory) => Err(AllocError),
    }
}

/// Reads the sources of a fixture.
pub fn read_all<'s>(alloc: Global, fixture: &Fixture<'s>) -> Result<Vec<Source<'s>>, AllocError> {
    let mut sources = Vec::new(alloc);
    for part in &fixture.parts {
        sources.push(read(alloc, part.source)?)?;
    }
    Ok(sources)
}

// ---- what is reported

/// The ranges of Junk, as a fixture has them.
fn junk_lines(alloc: Global, errors: &[ParserError]) -> Result<String, AllocError> {
    let mut out = String::new(alloc);
    for error in errors {
        let (start, end) = (error.start, error.end);
        write!(out, "{start}..{end}\n")?;
    }
    Ok(out)
}

/// Adds what an adding call reports, as a fixture has it.
fn put_left(out: &mut String, added: Result<(), AddFault>) -> Result<(), AllocError> {
    let errors = match added {
        Ok(()) => return Ok(()),
        Err(AddFault::Memory) => return Err(AllocError),
        Err(AddFault::Overriding(errors)) => errors,
    };
    for error in &errors {
        match error {
            FluentError::Overriding { kind, id } => write!(out, "{kind} \"{id}\"\n")?,
            _ => write!(out, "{error}\n")?,
        }
    }
    Ok(())
}

// ---- settings

/// The plural rules that are asked for.
fn plurals_of(alloc: Global, rules: Rules<'_>) -> Result<Plurals, RuleFault> {
    let (cardinal, ordinal) = match rules {
        Rules::English => return Ok(Plurals::English),
        Rules::Texts(cardinal, ordinal) => (cardinal, ordinal),
        Rules::Tag(tag) => match rules_for(cldr_plurals(), tag) {
            Some(rules) => (rules.cardinal, rules.ordinal),
            None => ("no rules", ""),
        },
    };
    Ok(Plurals::Rules(RuleTexts::parse(alloc, cardinal, ordinal)?))
}

/// The same, or English where they can't be read, which is reported.
fn plurals_or_english(
    alloc: Global,
    rules: Rules<'_>,
    report: &mut Report<'_>,
) -> Result<Plurals, AllocError> {
    match plurals_of(alloc, rules) {
        Ok(plurals) => Ok(plurals),
        Err(RuleFault::Memory) => Err(AllocError),
        Err(_) => {
            report.holds(false, "no plural rules")?;
            Ok(Plurals::English)
        }
    }
}

/// Sets what takes no memory. Whether the limit is one.
pub fn set(bundle: &mut Bundle<'_, '_, '_>, settings: &Settings<'_>) -> bool {
    bundle.set_use_isolating(settings.is_isolating);
    bundle.set_transform(if settings.is_upper { Some(Upper) } else { None });
    bundle.set_formatter(settings.formatter);
    match settings.limit {
        Some(limit) => bundle.set_placeable_limit(limit),
        None => true,
    }
}

/// Adds the functions, and what is reported of them.
fn add_functions<'s, 'f: 's>(
    bundle: &mut Bundle<'_, 's, 'f>,
    functions: &[(&'f str, Answer<'f>)],
    settings: &Settings<'_>,
    left: &mut String,
) -> Result<(), AllocError> {
    if settings.has_builtins {
        put_left(left, bundle.add_builtins())?;
    }
    for index in settings.functions.0..settings.functions.1 {
        if let Some((id, answer)) = functions.get(index) {
            put_left(left, bundle.add_function(*id, *answer))?;
        }
    }
    Ok(())
}

/// A bundle with plural rules, and with functions where these come first, and what is reported of these.
pub fn settled<'r, 's, 'f: 's>(
    alloc: Global,
    functions: &[(&'f str, Answer<'f>)],
    settings: &Settings<'_>,
    left: &mut String,
    report: &mut Report<'_>,
) -> Result<Bundle<'r, 's, 'f>, AllocError> {
    let plurals = plurals_or_english(alloc, settings.rules, report)?;
    let mut bundle: Bundle<'r, 's, 'f> = FluentBundle::new(alloc, Vec::new(alloc), plurals);
    if !settings.are_last {
        add_functions(&mut bundle, functions, settings, left)?;
    }
    Ok(bundle)
}

// ---- bundles

/// Adds a resource, and what is reported.
fn add<'r, 's>(
    bundle: &mut Bundle<'r, 's, '_>,
    part: &Part<'_>,
    source: &'r Source<'s>,
    left: &mut String,
) -> Result<(), AllocError> {
    if part.is_overriding {
        return bundle.add_resource_overriding(&source.resource);
    }
    put_left(left, bundle.add_resource(&source.resource))
}

/// Compares what is reported of a resource.
fn compare(
    alloc: Global,
    part: &Part<'_>,
    source: &Source<'_>,
    left: &str,
    report: &mut Report<'_>,
) -> Result<(), AllocError> {
    report.at(part.line);
    let junk = junk_lines(alloc, source.errors.as_slice())?;
    report.same(part.junk.as_str(), junk.as_str(), "junk of the resource")?;
    report.at(part.line);
    report.same(part.left.as_str(), left, "left of the resource")
}

/// The line where the last resource of a bundle begins.
fn last_line(fixture: &Fixture<'_>, bundle: usize) -> usize {
    let mut line = 0;
    for part in &fixture.parts {
        if part.bundle == bundle {
            line = part.line;
        }
    }
    line
}

/// A bundle with its resources.
fn bundle_of<'r, 's>(
    alloc: Global,
    fixture: &Fixture<'s>,
    described: &Described<'s>,
    sources: &'r [Source<'s>],
    report: &mut Report<'_>,
) -> Result<Bundle<'r, 's, 's>, AllocError> {
    report.at(described.line);
    let mut left = String::new(alloc);
    let functions = fixture.functions.as_slice();
    let mut bundle = settled(alloc, functions, &described.settings, &mut left, report)?;
    report.holds(set(&mut bundle, &described.settings), "no such limit")?;
    let last = last_line(fixture, described.resources_of);
    for (part, source) in fixture.parts.iter().zip(sources) {
        if part.bundle == described.resources_of {
            add(&mut bundle, part, source, &mut left)?;
            if described.settings.are_last && part.line == last {
                add_functions(&mut bundle, functions, &described.settings, &mut left)?;
            }
            compare(alloc, part, source, left.as_str(), report)?;
            left = String::new(alloc);
        }
    }
    Ok(bundle)
}

/// The bundles of a fixture.
pub fn all<'r, 's>(
    alloc: Global,
    fixture: &Fixture<'s>,
    sources: &'r [Source<'s>],
    report: &mut Report<'_>,
) -> Result<Vec<Bundle<'r, 's, 's>>, AllocError> {
    let mut bundles = Vec::new(alloc);
    for described in &fixture.bundles {
        bundles.push(bundle_of(alloc, fixture, described, sources, report)?)?;
    }
    Ok(bundles)
}

/// The pattern of a message's value, or of the first attribute of a name.
pub fn pattern_in<'r, 's>(
    bundle: &Bundle<'r, 's, '_>,
    id: &str,
    attribute: Option<&str>,
) -> Option<&'r Pattern<'s>> {
    let message = bundle.get_message(id)?;
    match attribute {
        None => message.value(),
        Some(name) => Some(message.get_attribute(name)?.value()),
    }
}
