// Random tables, sound and faulty, and trees with random codes.
use crate::calls::Host;
use crate::codes::{is_code, Digits, LONGEST};
use crate::model::{label, size, Tree, DEEPEST, MOST};
use crate::random::Random;
use std::collections::BTreeSet;

#[derive(Clone, Copy)]
pub enum Shape {
    Flat,
    Chain,
    Any,
    Deep,
}

pub const SHAPES: [Shape; 4] = [Shape::Flat, Shape::Chain, Shape::Any, Shape::Deep];

pub fn random_table(random: &mut Random, shape: Shape, rows: usize) -> Vec<u32> {
    let mut table = Vec::new();
    let mut last = 0;
    for identity in identities(random, rows) {
        let depth = match shape {
            Shape::Flat => 1,
            Shape::Chain => last + 1,
            Shape::Any => random.within(1, last + 1),
            Shape::Deep => random.within(last.max(2) - 1, last + 1),
        };
        last = if table.is_empty() { 0 } else { depth.clamp(1, DEEPEST) };
        table.extend([identity, random.number() >> random.below(32), last as u32]);
    }
    table
}

// Distinct and not 0: from 1 up, from the largest down, far apart by powers of 2, or scattered.
fn identities(random: &mut Random, count: usize) -> Vec<u32> {
    let (kind, factor, shift) = (random.below(4), random.number() | 1, random.within(8, 19));
    let from = random.below(count);
    let turned = (0..count as u32).map(|i| 1 + (i + from as u32) % count as u32);
    turned
        .map(|i| match kind {
            0 => i,
            1 => u32::MAX - (i - 1),
            2 => i << shift,
            _ => i.wrapping_mul(factor),
        })
        .collect()
}

pub fn random_code(random: &mut Random) -> Digits {
    let length = match random.below(6) {
        0 => 1,
        1 | 2 => random.within(1, 7),
        3 => random.within(1, LONGEST),
        4 => 4 * random.within(1, 31) + random.below(3),
        _ => random.within(LONGEST - 4, LONGEST),
    };
    code_of(random, length)
}

pub fn code_of(random: &mut Random, length: usize) -> Digits {
    let mut digits: Digits = (1..length).map(|_| random.within(1, 3) as u8).collect();
    digits.push(random.within(2, 3) as u8);
    digits
}

// A code with many of the first digits of another.
pub fn near(random: &mut Random, code: &[u8]) -> Digits {
    let mut digits = code.to_vec();
    match random.below(4) {
        0 => digits.truncate(random.within(1, code.len())),
        1 => digits[random.below(code.len())] = random.within(1, 3) as u8,
        2 => digits.extend(code_of(random, 1 + code.len() % 3)),
        _ => {}
    }
    if is_code(&digits) {
        digits
    } else {
        code.to_vec()
    }
}

// Codes in rising order, all with the same first digits.
pub fn rising_codes(random: &mut Random, count: usize) -> Vec<Digits> {
    let same = random.pick(&[0, 0, 1, 30, 62, 95, 118]);
    let first: Digits = (0..same).map(|_| random.within(1, 3) as u8).collect();
    let mut codes = BTreeSet::new();
    while codes.len() < count {
        let most = if random.one_in(8) { LONGEST - same } else { 9 };
        let rest = random.within(1, most);
        codes.insert([first.clone(), code_of(random, rest)].concat());
    }
    codes.into_iter().collect()
}

// A sound register that no labelling gave.
pub fn random_tree(random: &mut Random, rows: usize) -> Tree {
    let shape = random.pick(&SHAPES);
    let table = random_table(random, shape, rows);
    let codes = rising_codes(random, 2 * rows);
    Tree::with_codes(&table, &codes)
}

// A chain down to depth 64, if it has so many rows; no sound table or register does.
pub fn long_chain(random: &mut Random, rows: usize) -> Vec<u32> {
    let mut table = random_table(random, Shape::Chain, rows);
    for row in 0..rows {
        table[3 * row + 2] = row.min(DEEPEST + 1) as u32;
    }
    table
}

fn spoil_table(random: &mut Random, table: &mut Vec<u32>) {
    let rows = table.len() / 3;
    let row = random.below(rows);
    match random.below(10) {
        0 => table[3 * row + 2] = random.pick(&[0, 1, 2, 63, 64, 65, u32::MAX, 1 << 31]),
        1 => table[3 * row + 2] += 1,
        2 => table[3 * row + 2] = table[3 * row + 2].saturating_sub(1),
        3 => table[3 * row] = 0,
        4 => table[3 * row] = table[3 * random.below(rows)],
        5 => table.truncate(random.below(table.len() + 1)),
        6 => table.truncate(3 * row + 1),
        7 => table.push(random.number()),
        8 => (table[3 * row], table[3 * row + 2]) = (0, random.pick(&[0, 64])),
        _ => {
            let at = random.below(table.len());
            table[at] ^= 1 << random.below(32);
        }
    }
}

// Labels a table, sound or not, into room of any size; both sides compared.
pub fn label_any(host: &mut Host, random: &mut Random, rows: usize) {
    let shape = random.pick(&SHAPES);
    let mut table = random_table(random, shape, rows);
    for _ in 0..random.below(4) {
        if table.len() >= 3 {
            spoil_table(random, &mut table);
        }
    }
    let need = size((table.len() / 3).min(MOST));
    let room = random.pick(&[need, need, need, need + 1, need - 1, 0, need + 104, need.saturating_sub(104), need + 300]);
    label_into(host, random, &table, room);
}

// What the register's bytes are after that call.
pub fn label_into(host: &mut Host, random: &mut Random, table: &[u32], room: usize) -> Vec<u8> {
    let before: Vec<u8> = (0..room).map(|_| random.byte()).collect();
    let want = label(table, room);
    let mut after = before.clone();
    if want.is_ok() {
        let bytes = Tree::labelled(table).bytes();
        after[..bytes.len()].copy_from_slice(&bytes);
    }
    host.label(table, &before, want, &after)
}
