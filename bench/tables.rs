// plant_label: agreement of all ways, then times.
use crate::plain::tables::{listed, walked, Places};
use crate::plant::{label, DEEPEST, ENTRY, HEADER, MOST, ROOM, ROW};
use crate::random::Random;
use crate::shapes::{table, SHAPES};
use crate::time::{best, clocked, Plan, Timed, Way};
use std::cell::RefCell;
use std::collections::HashSet;
use std::hint::black_box;

const ROUNDS: usize = 4;
const ROWS_A_ROUND: usize = 40_960;
const DAMAGED: usize = 1_000;

// The proved call first.
const WAYS: [(&str, fn(&[u32], &mut [u8]) -> i64); 4] = [
    ("proved", label),
    ("listed", listed::<Places>),
    ("walked", walked::<Places>),
    ("hash set", listed::<HashSet<u32>>),
];

// Every way gives the same answer and the same bytes, also past the register; the answer.
fn agreed(table: &[u32], room: usize) -> i64 {
    let results = WAYS.map(|(_, way)| {
        let mut register: Vec<u8> = (0..room).map(|i| i as u8).collect();
        (way(table, &mut register), register)
    });
    for ((name, _), (answer, register)) in WAYS.iter().zip(&results) {
        assert_eq!(*answer, results[0].0, "{name}: another answer, table {table:?}, room {room}");
        assert!(*register == results[0].1, "{name}: other bytes, table {table:?}, room {room}");
    }
    results[0].0
}

// A table with a number or two changed.
fn damaged(random: &mut Random, shape: &str) -> Vec<u32> {
    let rows = 1 + random.below(80);
    let mut damaged = table(random, shape, rows);
    for _ in 0..1 + random.below(2) {
        let at = random.below(damaged.len());
        damaged[at] = match random.below(3) {
            0 => damaged[random.below(rows) * ROW],
            1 => random.below(66) as u32,
            _ => 0,
        };
    }
    damaged
}

// Tables at exact room, more and less, cut in a row, one row too long, one row too deep, and damaged ones.
pub fn check(random: &mut Random) {
    let mut deep = table(random, "chains", 65);
    deep[ROW * 64 + 2] = DEEPEST + 1;
    assert_eq!(agreed(&deep, HEADER + ENTRY * 65), -64_100_002);
    for shape in SHAPES {
        for rows in (1..=100).chain([1_000, MOST - 1, MOST]) {
            let table = table(random, shape, rows);
            let size = HEADER + ENTRY * rows;
            assert_eq!(agreed(&table, size), size as i64);
            agreed(&table, size + 7);
            assert_eq!(agreed(&table, size - 1), i64::from(ROOM));
            agreed(&table[..ROW * rows - 1], size);
        }
        agreed(&table(random, shape, MOST + 1), HEADER + ENTRY * (MOST + 1));
        for _ in 0..DAMAGED {
            let damaged = damaged(random, shape);
            agreed(&damaged, HEADER + ENTRY * damaged.len() / ROW);
        }
    }
}

pub fn time(random: &mut Random, shape: &str, rows: usize) -> Timed {
    let table = table(random, shape, rows);
    let register = RefCell::new(vec![0; HEADER + ENTRY * rows]);
    let calls = ROWS_A_ROUND / rows;
    let ways = WAYS.map(|(name, way)| {
        let (table, register) = (&table, &register);
        let call = move |_| way(black_box(table), black_box(&mut register.borrow_mut()));
        Way::new(name, move |_| clocked(|| (0..calls).map(call).sum()))
    });
    best(Plan { rounds: ROUNDS, pieces: 1, calls }, &ways)
}
