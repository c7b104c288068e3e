//! What the tests share: sources, bundles, and findings as text.
use fluent_bundle::{
    Call, EnglishPlurals, FluentBundle, FluentResource, NoCustom, NoFormatter, NoFunction,
    NoTransform, TryNewFault,
};
use fluent_lint::Finding;
use std::alloc::{AllocError, Global};

/// A bundle in English.
pub type Bundle<'r, 's> = FluentBundle<
    'r,
    's,
    EnglishPlurals,
    NoCustom,
    NoFunction,
    NoFormatter,
    NoTransform,
>;

/// A source as it is read, with Junk or without.
pub fn read<'s>(alloc: Global, source: &'s str) -> Result<FluentResource<'s>, AllocError> {
    match FluentResource::try_new(alloc, source) {
        Ok(resource) => Ok(resource),
        Err(TryNewFault::Parser(resource, _)) => Ok(resource),
        Err(TryNewFault::Memory) => Err(AllocError),
    }
}

/// A bundle of all these resources, with a limit on placeables.
pub fn bundle_of_all<'r, 's>(
    alloc: Global,
    limit: usize,
    resources: &'r [FluentResource<'s>],
) -> Result<Bundle<'r, 's>, AllocError> {
    let mut bundle: Bundle<'r, 's> = FluentBundle::new(alloc, Vec::new(alloc), EnglishPlurals);
    for resource in resources {
        bundle.make(Call::AddResource(resource))?;
    }
    bundle.make(Call::SetPlaceableLimit(limit))?;
    Ok(bundle)
}

/// The texts of findings, each with a line feed.
pub fn lines(alloc: Global, findings: &[Finding<'_>]) -> Result<String, AllocError> {
    let mut out = String::new(alloc);
    for finding in findings {
        write!(out, "{finding}\n")?;
    }
    Ok(out)
}
