// Tables and registers of a shape, with long codes, with one change.
use crate::plain::fields::{digit, packed};
use crate::plain::registers::number;
use crate::plant::{label, DEEPEST, END, ENTRY, FIELD, HEADER, LONGEST, PARENT, START};
use crate::random::Random;
use std::collections::HashSet;
use std::iter::repeat_n;

pub const SHAPES: [&str; 3] = ["flat", "random", "chains"];

// A table of a shape, with identities and tags at random.
pub fn table(random: &mut Random, shape: &str, rows: usize) -> Vec<u32> {
    let mut identities = HashSet::new();
    let mut table = Vec::new();
    let mut depth = 0;
    while identities.len() < rows {
        let identity = random.next() as u32;
        if identity == 0 || !identities.insert(identity) {
            continue;
        }
        table.extend([identity, random.next() as u32, depth]);
        depth = match shape {
            "flat" => 1,
            "random" => 1 + random.below(DEEPEST.min(depth + 1) as usize) as u32,
            _ => depth % DEEPEST + 1,
        };
    }
    table
}

// A register of a shape with its first labels, identities and tags at random.
pub fn register(random: &mut Random, shape: &str, entries: usize) -> Vec<u8> {
    let table = table(random, shape, entries);
    let mut register = vec![0; HEADER + ENTRY * entries];
    assert_eq!(label(&table, &mut register), register.len() as i64);
    register
}

// Every code behind ones, so many that the longest has 127 digits: the same tree, the order decided in the last digits.
pub fn lengthened(register: &[u8]) -> Vec<u8> {
    let mut long = register.to_vec();
    let fields = |i: usize| [START, END, PARENT].map(|at| HEADER + ENTRY * i + at);
    let all: Vec<usize> = (0..(register.len() - HEADER) / ENTRY).flat_map(fields).collect();
    let length = |at: usize| (0..LONGEST).find(|&k| digit(&register[at..], k) == 0).unwrap_or(LONGEST);
    let ones = LONGEST - all.iter().map(|&at| length(at)).max().unwrap();
    for at in all {
        let n = length(at);
        if n == 0 {
            continue;
        }
        let code = (0..n).map(|k| digit(&register[at..], k));
        let digits: Vec<u8> = repeat_n(1, ones).chain(code).collect();
        long[at..at + FIELD].copy_from_slice(&packed(&digits));
    }
    long
}

pub fn identity(register: &[u8], i: usize) -> u32 {
    number(register, HEADER + ENTRY * i)
}

// A register of a shape with one change, which may leave it sound.
pub fn damaged(random: &mut Random, shape: &str) -> Vec<u8> {
    let entries = 2 + random.below(80);
    let mut damaged = register(random, shape, entries);
    if random.below(2) == 0 {
        damaged = lengthened(&damaged);
    }
    let place = |random: &mut Random| HEADER + ENTRY * random.below(entries) + START + FIELD * random.below(3);
    match random.below(4) {
        0 => random.flip(&mut damaged),
        1 => {
            let (from, to) = (place(random), place(random));
            damaged.copy_within(from..from + FIELD, to);
        }
        2 => {
            let (from, to) = (random.below(entries), random.below(entries));
            damaged.copy_within(HEADER + ENTRY * from..HEADER + ENTRY * from + 4, HEADER + ENTRY * to);
        }
        _ => {
            let at = place(random) + random.below(FIELD);
            damaged[at] = random.next() as u8;
        }
    }
    damaged
}
