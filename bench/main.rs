// The proved C calls beside the same calls in Rust: one table; with --shapes, longer ones too.
mod edits;
mod labels;
mod plain;
mod plant;
mod random;
mod registers;
mod shapes;
mod tables;
mod time;
mod tours;

use plant::{LONGEST, MOST};
use random::Random;
use shapes::{lengthened, register, SHAPES};
use std::process::exit;
use std::time::Instant;
use time::{best_of, Job, Timed};
use tours::Set;

const SEED: u64 = 20_250_301;
const SIZES: [usize; 4] = [1, 64, 512, MOST];

const HOW: &str = "\
Nothing is cleared before a run: caches are warm. An edit has a fresh copy of its register; the copying is not timed.
Ways take turns, five times over the whole table; the best time counts, and of the ways in Rust the fastest.
Registers are of a random shape. Growth: factor of our time from 64 to 4,096 entries over factor of entries.";

// A call on a register or a table of a shape and size; the same one each time.
fn sized(call: &str, shape: &str, size: usize) -> Option<Timed> {
    let random = &mut Random(SEED);
    if call == "plant_label" {
        return Some(tables::time(random, shape, size));
    }
    if let Some((_, ways)) = registers::QUESTIONS.iter().find(|question| question.0 == call) {
        return Some(registers::time(ways, &register(random, shape, size)));
    }
    let edit = edits::CALLS.iter().find(|edit| edit.name == call).unwrap();
    edits::time(random, edit, shape, size)
}

fn sized_calls() -> Vec<&'static str> {
    let questions = registers::QUESTIONS.iter().map(|question| question.0);
    questions.chain(["plant_label"]).chain(edits::CALLS.iter().map(|edit| edit.name)).collect()
}

// Nanoseconds, with a comma before every three digits.
fn ns(time: f64) -> String {
    if time < 100.0 {
        return format!("{time:.1}");
    }
    let digits = format!("{time:.0}");
    let (first, rest) = digits.split_at((digits.len() - 1) % 3 + 1);
    let threes = rest.as_bytes().chunks(3).map(|three| format!(",{}", str::from_utf8(three).unwrap()));
    first.to_string() + &threes.collect::<String>()
}

fn cell(timed: &Option<Timed>) -> String {
    let Some(timed) = timed else {
        return format!("{:>9}{:>9}{:>6}", "-", "-", "-");
    };
    format!("{:>9}{:>9}{:>6.2}", ns(timed.ours), ns(timed.rust()), timed.ours / timed.rust())
}

fn heading(over: &[&str], last: &str) {
    println!("{:20}{}", "", over.iter().map(|over| format!("{over:>24}")).collect::<String>());
    let parts = format!("{:>9}{:>9}{:>6}", "ours", "Rust", "ratio");
    println!("{:20}{}{last}", "ns a call", parts.repeat(over.len()));
}

// The factor of time from the second size to the last, over the factor of entries.
fn growth(cells: &[Option<Timed>]) -> f64 {
    let time = |k: usize| cells[k].as_ref().unwrap().ours;
    time(3) / time(1) * SIZES[1] as f64 / SIZES[3] as f64
}

fn table(short: &Set, long: &Set) {
    let mut calls = sized_calls();
    calls.retain(|call| !call.contains(','));
    let mut jobs: Vec<Job> = Vec::new();
    for call in labels::CALLS {
        jobs.extend([short, long].map(|set| -> Job { Box::new(move || Some(labels::time(call, set))) }));
    }
    for call in &calls {
        jobs.extend(SIZES.map(|size| -> Job { Box::new(move || sized(call, "random", size)) }));
    }
    let times = best_of(5, &jobs);
    let (codes, entries) = times.split_at(2 * labels::CALLS.len());
    let (least, most) = short.lengths();
    heading(&[&format!("codes of {least} to {most} digits"), &format!("codes of {LONGEST} digits")], "");
    for (call, cells) in labels::CALLS.iter().zip(codes.chunks(2)) {
        println!("{call:20}{}", cells.iter().map(cell).collect::<String>());
    }
    heading(&["1 entry", "64 entries", "512 entries", "4,096 entries"], "  growth");
    for (call, cells) in calls.iter().zip(entries.chunks(SIZES.len())) {
        println!("{call:20}{}{:>8.2}", cells.iter().map(cell).collect::<String>(), growth(cells));
    }
}

// Every shape and size by itself, with each way in Rust.
fn all_shapes(sets: [&Set; 3]) {
    let long = lengthened(&register(&mut Random(SEED), "random", MOST));
    let (mut names, mut jobs): (Vec<String>, Vec<Job>) = Default::default();
    for call in labels::CALLS {
        for set in sets {
            let (least, most) = set.lengths();
            names.push(format!("{call}, {least} to {most} digits"));
            jobs.push(Box::new(move || Some(labels::time(call, set))));
        }
    }
    for call in sized_calls() {
        for (shape, size) in SHAPES.iter().flat_map(|shape| SIZES.map(|size| (shape, size))) {
            names.push(format!("{call}, {shape}, {size}"));
            jobs.push(Box::new(move || sized(call, shape, size)));
        }
    }
    for (call, ways) in &registers::QUESTIONS {
        names.push(format!("{call}, random, {MOST}, long codes"));
        jobs.push(Box::new(|| Some(registers::time(ways, &long))));
    }
    println!("{:42}{:>9}{:>9}{:>6}   each way in Rust", "ns a call", "ours", "Rust", "ratio");
    for (name, timed) in names.iter().zip(best_of(3, &jobs)) {
        let ways = timed.iter().flat_map(|timed| &timed.ways).map(|(way, time)| format!("{way} {}", ns(*time)));
        println!("{name:42}{}   {}", cell(&timed), ways.collect::<Vec<_>>().join(", "));
    }
}

// All ways on all inputs, before anything is timed.
fn check(random: &mut Random, sets: [&Set; 3]) {
    let clock = Instant::now();
    for set in sets {
        labels::check(random, set);
    }
    tables::check(random);
    registers::check(random);
    let [accepted, refused] = edits::check(random);
    let took = clock.elapsed().as_secs_f64();
    println!(
        "Checked before: ours and every way in Rust give the same answers and bytes, also in {accepted} edits that"
    );
    println!("are accepted and {refused} that are refused (seed {SEED}, {took:.0} s).");
}

fn main() {
    let shapes = match std::env::args().skip(1).collect::<Vec<_>>()[..] {
        [] => false,
        [ref option] if option == "--shapes" => true,
        _ => {
            eprintln!("usage: bench/run [--shapes]");
            exit(2)
        }
    };
    let random = &mut Random(SEED);
    let (short, mixed, long) = (Set::short(random), Set::long(random, 60), Set::long(random, LONGEST));
    check(random, [&short, &mixed, &long]);
    println!("{HOW}");
    println!();
    table(&short, &long);
    if shapes {
        println!();
        all_shapes([&short, &mixed, &long]);
    }
}
