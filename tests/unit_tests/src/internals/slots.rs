//! Numbers of ids, and what stands in their slots.
use crate::check::check;
use fluent_references::Slots;
use std::alloc::AllocError;
use std::borrow::CowStr;
use std::process::Abort;

/// The number of an id, asked again where an allocation fails.
fn number_of<'s>(slots: &mut Slots<'s, u8>, id: &'s str) -> Result<u32, AllocError> {
    match slots.number_of(CowStr::Borrowed(id)) {
        Err(AllocError) => slots.number_of(CowStr::Borrowed(id)),
        number => number,
    }
}

/// Whether an id has a number.
pub fn has_number<'s>(slots: &mut Slots<'s, u8>, id: &'s str, number: u32) -> bool {
    match number_of(slots, id) {
        Ok(found) => found == number,
        Err(AllocError) => false,
    }
}

/// Ids as they come, and their numbers: the next one where an id is new.
const IDS: &[(&str, u32)] = &[
    ("a", 0),
    ("b", 1),
    ("a", 0),
    ("ab", 2),
    ("", 3),
    ("B", 4),
    ("b", 1),
    ("", 3),
    ("c", 5),
];

fn get_numbers(rt: &impl Abort, slots: &mut Slots<'static, u8>) {
    for (id, number) in IDS {
        check(rt, has_number(slots, id, *number), id);
    }
}

/// Run with each allocation failing in turn: an id that was refused gets the number that it would have got.
#[test]
fn ids_get_numbers_in_turn(rt: HostRuntime) {
    let mut slots = Slots::new(rt.alloc());
    get_numbers(&rt, &mut slots);
}

/// That an id names this, and that it stands in the slot of its number.
fn holds(slots: &Slots<'_, u8>, id: &str, number: u32, value: Option<u8>) -> bool {
    slots.find(id).copied() == value && slots.at(number).copied() == value
}

/// That the slots of a and b hold this, and that no other slot is there.
fn hold(slots: &Slots<'_, u8>, named: (Option<u8>, Option<u8>)) -> bool {
    holds(slots, "a", 0, named.0) && holds(slots, "b", 1, named.1) && holds(slots, "c", 2, None)
}

/// Puts `a`, fills its slot and one that isn't there, and puts `b`.
fn put_and_add(slots: &mut Slots<'static, u8>) -> bool {
    let is_put = has_number(slots, "a", 0);
    slots.fill(0, Some(7));
    slots.fill(1, Some(8));
    is_put && has_number(slots, "b", 1)
}

/// Whether a new slot is empty, and the one before stays as it is.
fn adds_an_empty_slot(slots: &mut Slots<'static, u8>) -> bool {
    put_and_add(slots) && hold(slots, (Some(7), None))
}

/// Makes room, again where an allocation fails.
fn make_room(slots: &mut Slots<'static, u8>, more: usize) -> bool {
    slots.reserve(more).is_ok() || slots.reserve(more).is_ok()
}

/// Whether slots are with room for more as they are without, and stay so where there is room for many.
fn are_same_with_room(slots: &mut Slots<'static, u8>) -> bool {
    make_room(slots, 1)
        && adds_an_empty_slot(slots)
        && make_room(slots, 100)
        && hold(slots, (Some(7), None))
}

/// Run with each allocation failing in turn: what ids name, and their numbers, are as before.
#[test]
fn room_for_more_changes_nothing(rt: HostRuntime) {
    let mut slots = Slots::new(rt.alloc());
    check(&rt, are_same_with_room(&mut slots), "what was there");
}
