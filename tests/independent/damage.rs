// One thing in a field, a label or a register made another; whether it is still sound, the model decides.
use crate::codes::{FIELD, LABEL, LONGEST};
use crate::model::{number_at, size, ENTRY, HEADER};
use crate::random::Random;

fn digits_in(field: &[u8]) -> usize {
    (0..=LONGEST).find(|i| digit(field, *i) == 0).unwrap_or(LONGEST + 1)
}

fn digit(field: &[u8], i: usize) -> u8 {
    field[i / 4] >> (6 - 2 * (i % 4)) & 3
}

fn set_digit(field: &mut [u8], i: usize, value: usize) {
    let shift = 6 - 2 * (i % 4);
    field[i / 4] = field[i / 4] & !(3 << shift) | (value as u8) << shift;
}

// A code's bytes up to and with its separator: what it takes without the zero fill.
pub fn cut(field: &[u8]) -> &[u8] {
    &field[..(digits_in(field) / 4 + 1).min(FIELD)]
}

pub fn spoil_bytes(random: &mut Random, bytes: &mut [u8]) {
    let at = random.below(bytes.len());
    if random.one_in(2) {
        bytes[at] ^= 1 << random.below(8);
    } else {
        bytes[at] = random.byte();
    }
}

pub fn spoil_field(random: &mut Random, field: &mut [u8]) {
    let n = digits_in(field);
    match random.below(9) {
        0 => spoil_bytes(random, field),
        1 => {
            let from = cut(field).len();
            field[from..].fill_with(|| random.byte());
        }
        2 if n < LONGEST => set_digit(field, random.within(n + 1, LONGEST), random.within(1, 3)),
        3 if n < LONGEST => set_digit(field, n, random.within(1, 3)),
        4 if n > 0 => set_digit(field, n - 1, 0),
        5 if n > 0 => set_digit(field, n - 1, 1),
        6 if n > 0 => set_digit(field, random.below(n), random.below(4)),
        7 => (n..=LONGEST).for_each(|i| set_digit(field, i, random.within(2, 3))),
        _ => field.fill(0),
    }
}

// The three codes without their fill one behind the other, as far as they reach.
fn cut_label(label: &mut Vec<u8>, filled: bool) {
    let mut cuts: Vec<u8> = label.chunks(FIELD).flat_map(cut).copied().collect();
    if filled {
        cuts.resize(LABEL, 0);
    }
    *label = cuts;
}

// The label has 96 bytes before.
pub fn spoil_label(random: &mut Random, label: &mut Vec<u8>) {
    let (one, other) = (FIELD * random.below(3), FIELD * random.below(3));
    match random.below(9) {
        0 | 1 => spoil_field(random, &mut label[one..one + FIELD]),
        2 => label.truncate(random.pick(&[0, 32, 64, LABEL - 1])),
        3 => label.push(0),
        4 => cut_label(label, false),
        5 => cut_label(label, true),
        6 => label.copy_within(one..one + FIELD, other),
        7 => swap(label, one, other, FIELD),
        _ => spoil_bytes(random, label),
    }
}

fn swap(bytes: &mut [u8], one: usize, other: usize, n: usize) {
    let held = bytes[one..one + n].to_vec();
    bytes.copy_within(other..other + n, one);
    bytes[other..other + n].copy_from_slice(&held);
}

fn put_number(bytes: &mut [u8], at: usize, number: u32) {
    bytes[at..at + 4].copy_from_slice(&number.to_le_bytes());
}

// Does nothing to a register that is shorter than its count says already.
pub fn spoil_register(random: &mut Random, register: &mut Vec<u8>) {
    let count = if register.len() < HEADER { 0 } else { number_at(register, 0) as usize };
    if count == 0 || register.len() < size(count) {
        return;
    }
    let (one, other) = (size(random.below(count)), size(random.below(count)));
    let (field, another) = (one + 8 + FIELD * random.below(3), other + 8 + FIELD * random.below(3));
    match random.below(17) {
        0 => spoil_bytes(random, &mut register[..size(count)]),
        1 => spoil_bytes(random, &mut register[..HEADER]),
        2 => put_number(register, 0, random.pick(&[0, count as u32 + 1, count as u32 - 1, 4097])),
        3 => put_number(register, 4, 1 << random.below(32)),
        4 => put_number(register, one, 0),
        5 => register.copy_within(other..other + 4, one),
        6 => register[one + 4..one + 8].fill_with(|| random.byte()),
        7 | 8 => spoil_field(random, &mut register[field..field + FIELD]),
        9 => register.copy_within(another..another + FIELD, field),
        10 => swap(register, field, another, FIELD),
        11 => swap(register, one, other, ENTRY),
        12 => spoil_entry_label(random, register, one + 8),
        13 => register.truncate(size(count) - random.pick(&[1, 2, ENTRY - 1, ENTRY, ENTRY + 1])),
        14 => register.truncate(random.below(size(count))),
        15 => low_code(random, &mut register[HEADER + 72..HEADER + 104]),
        _ => take_out(register, one, count),
    }
}

fn spoil_entry_label(random: &mut Random, register: &mut [u8], at: usize) {
    let mut label = register[at..at + LABEL].to_vec();
    spoil_label(random, &mut label);
    label.resize(LABEL, 0);
    register[at..at + LABEL].copy_from_slice(&label);
}

// For the root's parent start: a code that is mostly below all others.
fn low_code(random: &mut Random, field: &mut [u8]) {
    let n = random.within(1, LONGEST);
    field.fill(0);
    (0..n).for_each(|i| set_digit(field, i, if i + 1 < n { 1 } else { 2 }));
}

// An entry gone, whether or not it has children.
fn take_out(register: &mut [u8], at: usize, count: usize) {
    register.copy_within(at + ENTRY..size(count), at);
    put_number(register, 0, count as u32 - 1);
}
