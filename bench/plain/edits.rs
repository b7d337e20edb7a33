// The edits, written once, with two ways to check and to find.
use super::fields::{between, bytes, length, Code, Field};
use super::registers::{answer, at_once, entries, field, in_passes, not_below, number, Entry};
use super::tables::write_number;
use crate::plant::{Edit, Place};
use crate::plant::{CHILDREN, CODE_LENGTH, DEPTH, IDENTITY, NO_REGISTER, ROOM, ROOT};
use crate::plant::{DEEPEST, END, ENTRY, FIELD, HEADER, MOST, PARENT, START};

// Place and depth of an identity in a register that is found sound.
type Located = Result<(usize, usize), i32>;

// Upwards from an entry to the child of the one that starts with a code.
fn child_above(entries: &[Entry], mut at: usize, start: &Code) -> usize {
    loop {
        let parent = field(&entries[at], PARENT);
        if parent == *start {
            return at;
        }
        at = not_below(entries, &parent);
    }
}

// Where the new entry comes, its left and right neighbour and its parent's start.
fn gap(entries: &[Entry], place: Place, at: usize) -> (usize, Code, Code, Code) {
    let [start, end, parent] = [START, END, PARENT].map(|part| field(&entries[at], part));
    let behind = not_below(entries, &end);
    match place {
        Place::First => {
            let right = if behind > at + 1 { field(&entries[at + 1], START) } else { end };
            (at + 1, start, right, start)
        }
        Place::Last if behind == at + 1 => (behind, start, end, start),
        Place::Last => (behind, field(&entries[child_above(entries, behind - 1, &start)], END), end, start),
        Place::Before if field(&entries[at - 1], START) == parent => (at, parent, start, parent),
        Place::Before => (at, field(&entries[child_above(entries, at - 1, &parent)], END), start, parent),
        Place::After => {
            let next = entries.get(behind).filter(|next| field(next, PARENT) == parent);
            let right =
                next.map_or_else(|| field(&entries[not_below(entries, &parent)], END), |next| field(next, START));
            (behind, end, right, parent)
        }
    }
}

// The new start and end between two codes.
fn new_codes(left: &Code, right: &Code) -> Result<(Field, Field), i32> {
    let (right, r) = (bytes(right), length(right));
    let (start, s) = between(&bytes(left), length(left), &right, r).ok_or(CODE_LENGTH)?;
    let (end, _) = between(&start, s, &right, r).ok_or(CODE_LENGTH)?;
    Ok((start, end))
}

#[inline(always)]
fn insert(register: &mut [u8], (at, depth): (usize, usize), place: Place, new: [u32; 2]) -> Result<usize, i32> {
    let inside = matches!(place, Place::First | Place::Last);
    if at == 0 && !inside {
        return Err(ROOT);
    }
    let entries = entries(register).ok_or(NO_REGISTER)?;
    if new[0] == 0 || entries.iter().any(|entry| number(entry, 0) == new[0]) {
        return Err(IDENTITY);
    }
    if depth + inside as usize > DEEPEST as usize {
        return Err(DEPTH);
    }
    let count = entries.len();
    if count == MOST || register.len() < HEADER + ENTRY * (count + 1) {
        return Err(ROOM);
    }
    let (slot, left, right, parent) = gap(entries, place, at);
    let (start, end) = new_codes(&left, &right)?;
    let from = HEADER + ENTRY * slot;
    register.copy_within(from..HEADER + ENTRY * count, from + ENTRY);
    let entry = &mut register[from..from + ENTRY];
    write_number(entry, 0, new[0]);
    write_number(entry, 4, new[1]);
    for (part, code) in [(START, start), (END, end), (PARENT, bytes(&parent))] {
        entry[part..part + FIELD].copy_from_slice(&code);
    }
    write_number(register, 0, count as u32 + 1);
    Ok(slot)
}

#[inline(always)]
fn delete(register: &mut [u8], at: usize) -> Result<usize, i32> {
    if at == 0 {
        return Err(ROOT);
    }
    let entries = entries(register).ok_or(NO_REGISTER)?;
    let count = entries.len();
    if at + 1 < count && field(&entries[at + 1], PARENT) == field(&entries[at], START) {
        return Err(CHILDREN);
    }
    let (from, end) = (HEADER + ENTRY * at, HEADER + ENTRY * count);
    register.copy_within(from + ENTRY..end, from);
    register[end - ENTRY..end].fill(0);
    write_number(register, 0, count as u32 - 1);
    Ok(at)
}

#[inline(always)]
fn apply(register: &mut [u8], edit: Edit, locate: impl Fn(&[u8], u32) -> Located) -> Result<usize, i32> {
    let (Edit::Insert { target, .. } | Edit::Delete { target }) = edit;
    let found = locate(register, target)?;
    match edit {
        Edit::Insert { place, identity, tag, .. } => insert(register, found, place, [identity, tag]),
        Edit::Delete { .. } => delete(register, found.0),
    }
}

#[inline(never)]
pub fn apply_at_once(register: &mut [u8], edit: Edit) -> i32 {
    answer(apply(register, edit, |register, target| at_once(register, [target]).map(|[found]| found)))
}

#[inline(never)]
pub fn apply_in_passes(register: &mut [u8], edit: Edit) -> i32 {
    answer(apply(register, edit, in_passes))
}
