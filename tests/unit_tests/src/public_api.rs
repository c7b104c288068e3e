//! Tests of bundles and chains by their calls: patterns made by hand, the calls of a scope, objects that refuse, what is
//! given whole, and what an application composes of them. Rows of texts stand in fixtures.

mod by_hand;
mod by_id;
mod catalogs;
mod common;
mod composing;
mod deep;
mod end_to_end;
mod errors;
mod failing;
mod formatted;
mod given;
mod in_one_scope;
mod lists;
mod made;
mod messages;
mod taken;
mod trees;
mod values;
