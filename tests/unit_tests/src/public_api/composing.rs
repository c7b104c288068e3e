//! What an application composes of the bundle's calls.
use crate::check::check;
use crate::public_api::common::{Bundle, read, value_of};
use crate::public_api::given::formats;
use fluent_intl::EnglishPlurals;
use std::test::Fail;
use test_contracts::composing::{is_formatted, is_the_id, with_formatter};
use test_contracts::own::Bracketed;

#[test]
fn a_composed_formatter_is_asked(rt: HostRuntime) -> Result<(), Fail> {
    let alloc = rt.alloc();
    let resource = read(alloc, "m = Hello")?;
    let bundle: Bundle<'_, '_> = with_formatter(alloc, EnglishPlurals, Bracketed);
    formats(
        &rt,
        alloc,
        &bundle,
        value_of(&resource)?,
        None,
        ("[Hello]", ""),
    )?;
    Ok(())
}

#[test]
fn texts_and_ids_take_no_memory(rt: HostRuntime) -> Result<(), Fail> {
    let resource = read(rt.alloc(), "m = Hello")?;
    check(
        &rt,
        is_formatted(rt.alloc(), value_of(&resource)?),
        "a text",
    );
    check(&rt, is_the_id(rt.alloc(), "a"), "an id");
    Ok(())
}
