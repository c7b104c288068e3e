//! Sources with their trees, written by hand from the grammar of Fluent Syntax 1.0: a table for each part of it.
mod attributes;
mod calls;
mod chunks;
mod indents;
mod line_ends;
mod messages;
mod mixed;
mod placeable_lines;
mod placeables;
mod selects;

use crate::check::{Row, check_rows};
use crate::syntax::shown::is_tree;
use std::alloc::Global;

/// A source, and its tree.
pub type Source = (&'static str, &'static str);

impl Row for Source {
    fn holds(&self, alloc: Global) -> bool {
        is_tree(alloc, self.0, self.1)
    }
}

/// How many tables there are.
const TABLES: usize = 10;

/// The table at a place.
fn table(place: usize) -> &'static [Source] {
    match place {
        0 => attributes::ROWS,
        1 => calls::ROWS,
        2 => chunks::ROWS,
        3 => indents::ROWS,
        4 => line_ends::ROWS,
        5 => messages::ROWS,
        6 => mixed::ROWS,
        7 => placeable_lines::ROWS,
        8 => placeables::ROWS,
        _ => selects::ROWS,
    }
}

#[test]
fn sources_are_read_as_their_trees(rt: HostRuntime) {
    for place in 0..TABLES {
        check_rows(&rt, rt.alloc(), table(place));
    }
}
