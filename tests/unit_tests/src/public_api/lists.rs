//! Bundles that are kept in lists and in a map, and let go; and which of them answers.
use crate::check::check;
use crate::public_api::common::{Bundle, bundle_of, read};
use fluent_bundle::{EnglishPlurals, FluentResource, NoCustom};
use fluent_fallback::{BundleRef, Chain};
use std::alloc::{AllocError, Global};
use std::collections::BTreeMap;
use std::process::Abort;
use std::test::Fail;
use test_contracts::own::{Bracketed, Own, Upper};

/// A chain of bundles.
pub type Bundles<'c, 'b, 'r, 's> = Chain<
    'c,
    'b,
    'r,
    's,
    EnglishPlurals,
    NoCustom,
    Own,
    Bracketed,
    Upper,
>;

const FIRST: &str = "a = 1\nk =\n    .t = x\n";

const SECOND: &str = "a = 2\n    .t = { $n }y\nb = { $x }\nk = v\n    .u = { \"w\" }\n";

/// Both sources of the tests of chains.
pub fn two(alloc: Global) -> Result<[FluentResource<'static>; 2], AllocError> {
    Ok([read(alloc, FIRST)?, read(alloc, SECOND)?])
}

/// A bundle of each resource.
pub fn list_of<'r>(
    alloc: Global,
    resources: &'r [FluentResource<'static>],
) -> Result<Vec<Bundle<'r, 'static>>, AllocError> {
    let mut bundles = Vec::new(alloc);
    for resource in resources {
        bundles.push(bundle_of(alloc, &[], resource)?)?;
    }
    Ok(bundles)
}

/// Bundles by their languages' tags.
fn map_of<'r>(
    alloc: Global,
    tags: &[&'static str],
    resources: &'r [FluentResource<'static>],
) -> Result<BTreeMap<&'static str, Bundle<'r, 'static>>, AllocError> {
    let mut bundles = BTreeMap::new(alloc);
    for (tag, resource) in tags.iter().zip(resources) {
        bundles.insert(*tag, bundle_of(alloc, &[], resource)?)?;
    }
    Ok(bundles)
}

/// An id, the name of an attribute or none, and the place of the bundle that answers.
type Place = (&'static str, Option<&'static str>, Option<usize>);

const PLACES: &[Place] = &[
    ("a", None, Some(0)),
    ("b", None, Some(1)),
    ("k", None, Some(1)),
    ("c", None, None),
    ("k", Some("t"), Some(0)),
    ("k", Some("u"), Some(1)),
    ("a", Some("t"), Some(1)),
    ("a", Some("u"), None),
    ("c", Some("t"), None),
];

/// Of the first bundle alone.
const OF_ONE: &[Place] = &[
    ("a", None, Some(0)),
    ("b", None, None),
    ("k", None, None),
    ("k", Some("t"), Some(0)),
    ("k", Some("u"), None),
];

fn is_place(chain: &Bundles<'_, '_, '_, 'static>, row: &Place) -> bool {
    match row.1 {
        None => chain.find_value(row.0) == row.2,
        Some(name) => chain.find_attribute(row.0, name) == row.2,
    }
}

fn answers(rt: &impl Abort, chain: &Bundles<'_, '_, '_, 'static>, rows: &[Place]) {
    for row in rows {
        check(rt, is_place(chain, row), row.0);
    }
}

#[test]
fn a_list_says_which_bundle_answers(rt: HostRuntime) -> Result<(), Fail> {
    let resources = two(rt.alloc())?;
    let mut bundles = list_of(rt.alloc(), &resources)?;
    answers(&rt, &Chain::of(bundles.as_slice()), PLACES);
    bundles.truncate(1);
    answers(&rt, &Chain::of(bundles.as_slice()), OF_ONE);
    bundles.clear();
    answers(&rt, &Chain::of(bundles.as_slice()), &[("a", None, None)]);
    Ok(())
}

/// The bundles of two languages, in the order in which somebody reads them.
fn chosen(rt: &impl Abort, by_tag: &BTreeMap<&'static str, Bundle<'_, 'static>>) {
    match (by_tag.get("pl"), by_tag.get("en")) {
        (Some(first), Some(second)) => {
            answers(
                rt,
                &Chain::new(&[BundleRef(first), BundleRef(second)]),
                PLACES,
            );
        }
        _ => check(rt, false, "a bundle by its tag"),
    }
}

#[test]
fn a_map_keeps_bundles_by_tag(rt: HostRuntime) -> Result<(), Fail> {
    let resources = two(rt.alloc())?;
    let mut by_tag = map_of(rt.alloc(), &["pl", "en"], &resources)?;
    chosen(&rt, &by_tag);
    by_tag.remove("pl");
    check(&rt, by_tag.len() == 1, "one is let go");
    Ok(())
}

/// Bundles in a struct.
#[derive(Drop)]
struct Kept<'r> {
    bundles: Vec<Bundle<'r, 'static>>,
}

impl<'r> Kept<'r> {
    fn push(
        &mut self,
        alloc: Global,
        resource: &'r FluentResource<'static>,
    ) -> Result<(), AllocError> {
        self.bundles.push(bundle_of(alloc, &[], resource)?)?;
        Ok(())
    }
}

/// How many there were, when they are let go.
fn count_of(kept: Kept<'_>) -> usize {
    kept.bundles.len()
}

#[test]
fn a_struct_keeps_bundles(rt: HostRuntime) -> Result<(), Fail> {
    let resources = two(rt.alloc())?;
    let mut kept = Kept {
        bundles: Vec::new(rt.alloc()),
    };
    for resource in &resources {
        kept.push(rt.alloc(), resource)?;
    }
    answers(&rt, &Chain::of(kept.bundles.as_slice()), PLACES);
    check(&rt, count_of(kept) == 2, "both are let go");
    Ok(())
}
