// Random tables, registers, edits and questions through the C calls, held to a model of its own that was written from 01.
//
// usage: independent [--seed N] [--calls N]
mod calls;
mod codes;
mod counts;
mod damage;
mod fields;
mod full;
mod model;
mod probe;
mod random;
mod runs;
mod tables;
mod worked;

use calls::Host;
use counts::Counts;
use random::Random;
use runs::{Habit, Run, HABITS};
use std::process::exit;
use tables::{label_any, random_tree, Shape, SHAPES};

const SEED: u64 = 20_260_117;
const CALLS: u64 = 2_000_000;
const LARGEST_EACH: u64 = 1_000_000;

fn options() -> (u64, u64) {
    let (mut seed, mut calls) = (SEED, CALLS);
    let mut words = std::env::args().skip(1);
    while let Some(word) = words.next() {
        let number = words.next().and_then(|number| number.parse().ok());
        match (word.as_str(), number) {
            ("--seed", Some(number)) => seed = number,
            ("--calls", Some(number)) => calls = number,
            _ => {
                eprintln!("usage: independent [--seed N] [--calls N]");
                exit(2);
            }
        }
    }
    (seed, calls)
}

fn codes_and_labels(host: &mut Host, random: &mut Random) {
    for _ in 0..20 {
        fields::pack_any(host, random);
        fields::unpack_any(host, random);
        fields::between_any(host, random);
        fields::ask_any(host, random);
    }
    fields::ask_overlapping(host, random);
}

// A register of few entries, first codes or any, edited and then damaged.
fn small_register(host: &mut Host, random: &mut Random) {
    let (rows, shape) = (random.within(1, 40), random.pick(&SHAPES));
    let rows = if random.one_in(8) { rows + 50 } else { rows };
    let more = random.pick(&[0, 103, 105, 1040, 20_000, 20_000, 20_000, 20_000]);
    let start = if random.one_in(3) {
        let tree = random_tree(random, rows);
        Run::of_tree(random, tree, more)
    } else {
        Run::labelled(host, random, shape, rows, more)
    };
    let (habit, steps) = (random.pick(&HABITS), random.within(1, 260));
    let end = runs::run(host, random, start, habit, steps);
    for _ in 0..20 {
        probe::damaged(host, random, end.register(), &end.identities());
    }
}

// Thousands of edits on one register; its room is soon full, and deletions free it.
fn long_run(host: &mut Host, random: &mut Random) {
    let start = Run::labelled(host, random, Shape::Any, 8, 104 * 30);
    let habit = random.pick(&[Habit::Anywhere, Habit::Churn]);
    runs::run(host, random, start, habit, 3000);
}

fn round(host: &mut Host, random: &mut Random) {
    for _ in 0..3 {
        codes_and_labels(host, random);
    }
    for _ in 0..20 {
        let rows = random.within(1, 40);
        label_any(host, random, rows);
    }
    for _ in 0..20 {
        let tree = random_tree(random, 12);
        let start = Run::of_tree(random, tree, 120);
        probe::damaged(host, random, start.register(), &start.identities());
    }
    full::deepest(host, random);
    for _ in 0..3 {
        small_register(host, random);
    }
    if random.one_in(20) {
        long_run(host, random);
    }
}

fn main() {
    let (seed, calls) = options();
    println!("seed {seed}, calls {calls}");
    worked::check();
    let mut host = Host { seed, made: 0, counts: Counts::new() };
    let mut random = Random::new(seed);
    let mut largest = 0;
    while host.made < calls {
        if host.made >= largest {
            full::largest(&mut host, &mut random);
            largest += LARGEST_EACH;
        }
        round(&mut host, &mut random);
    }
    host.counts.print();
    let missing = host.counts.missing();
    if !missing.is_empty() {
        println!("FAILED: seed {seed}, never seen: {}", missing.join("; "));
        exit(1);
    }
    println!("{} calls, each as in the model", host.made);
}
