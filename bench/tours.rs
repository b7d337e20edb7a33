// Codes and labels to call with: those of trees that grew at random.
use crate::plain::fields::{packed, Field};
use crate::plant::{FIELD, LABEL, LONGEST};
use crate::random::Random;
use std::cmp::Ordering;
use std::collections::BTreeSet;

pub const ENTRIES: usize = 1_000;
pub const QUESTIONS: usize = 200_000;
const EDITS: usize = 400;

pub type Label = [u8; LABEL];

// The one code between two sides, over lists of digits.
pub fn between(left: &[u8], right: &[u8]) -> Vec<u8> {
    let join = |digits: &[u8], tail: &[u8]| [digits, tail].concat();
    match left.len().cmp(&right.len()) {
        Ordering::Less => {
            let (&last, rest) = right.split_last().unwrap();
            join(rest, if last == 2 { &[1, 2] } else { &[2] })
        }
        Ordering::Equal => join(left, &[2]),
        Ordering::Greater => {
            let (&last, rest) = left.split_last().unwrap();
            join(rest, if last == 2 { &[3] } else { &[3, 2] })
        }
    }
}

// The first labelling of the numbers between p and q.
fn thirds(codes: &mut [Vec<u8>], p: usize, q: usize) {
    let d = q - p;
    if d == 1 {
        return;
    }
    if d == 2 {
        codes[p + 1] = between(&codes[p], &codes[q]);
        return;
    }
    let (i, j) = (p + (d + 1) / 3, p + (2 * d + 1) / 3);
    let (left, right) = (&codes[p], &codes[q]);
    let (low, high): (Vec<u8>, Vec<u8>) = if left.len() < right.len() {
        let rest = &right[..right.len() - 1];
        ([rest, &[1, 2]].concat(), [rest, &[1, 3]].concat())
    } else {
        ([&left[..], &[2]].concat(), [&left[..], &[3]].concat())
    };
    codes[i] = low;
    codes[j] = high;
    thirds(codes, p, i);
    thirds(codes, i, j);
    thirds(codes, j, q);
}

// A step of a tour: an entry's start or its end, and the code that stands there.
#[derive(Clone)]
struct Step {
    entry: usize,
    end: bool,
    code: Vec<u8>,
}

// A tree that grew at random, with no codes yet.
fn grown(random: &mut Random, entries: usize) -> Vec<Step> {
    let mut tour = Vec::new();
    let mut open = Vec::new();
    let step = |entry, end| Step { entry, end, code: Vec::new() };
    for entry in 0..entries {
        let depth = match open.len() {
            0 => 0,
            deep => 1 + random.below(deep).max(random.below(deep)),
        };
        while open.len() > depth {
            tour.push(step(open.pop().unwrap(), true));
        }
        tour.push(step(entry, false));
        open.push(entry);
    }
    while let Some(entry) = open.pop() {
        tour.push(step(entry, true));
    }
    tour
}

// Codes of real use: a first labelling, then insertions at random places.
fn short_tour(random: &mut Random) -> Vec<Step> {
    let mut tour = grown(random, ENTRIES - EDITS);
    let mut codes = vec![Vec::new(); tour.len() + 2];
    let last = codes.len() - 1;
    thirds(&mut codes, 0, last);
    for (step, code) in tour.iter_mut().zip(&codes[1..]) {
        step.code = code.clone();
    }
    for entry in ENTRIES - EDITS..ENTRIES {
        let at = 1 + random.below(tour.len() - 1);
        let start = between(&tour[at - 1].code, &tour[at].code);
        let end = between(&start, &tour[at].code);
        tour.insert(at, Step { entry, end: true, code: end });
        tour.insert(at, Step { entry, end: false, code: start });
    }
    tour
}

// Long codes that share 90 digits; those of less are beginnings of the shared digits.
fn long_tour(random: &mut Random, shortest: usize) -> Vec<Step> {
    let mut tour = grown(random, ENTRIES);
    let shared = random.code(90);
    let beginnings = (shortest..=90).filter(|&n| shared[n - 1] > 1);
    let mut codes: BTreeSet<Vec<u8>> = beginnings.map(|n| shared[..n].to_vec()).collect();
    let least = shortest.max(93);
    while codes.len() < tour.len() {
        let n = least + random.below(LONGEST + 1 - least) - 90;
        codes.insert([&shared[..], &random.code(n)].concat());
    }
    for (step, code) in tour.iter_mut().zip(codes) {
        step.code = code;
    }
    tour
}

// Gaps of long codes in which a code of 127 digits is made.
fn long_gaps(random: &mut Random) -> Vec<Gap> {
    let shared = random.code(90);
    let mut gaps = Vec::new();
    while gaps.len() < 2 * ENTRIES {
        let mut sides = [0, 1].map(|_| {
            let n = LONGEST - 90 - random.below(2);
            [&shared[..], &random.code(n)].concat()
        });
        sides.sort();
        if sides[0] != sides[1] && between(&sides[0], &sides[1]).len() == LONGEST {
            gaps.push(sides);
        }
    }
    gaps
}

// The labels of a tour, and the parent of each.
fn labels(tour: &[Step]) -> (Vec<Label>, Vec<Option<usize>>) {
    let mut labels = vec![[0; LABEL]; ENTRIES];
    let mut parents = vec![None; ENTRIES];
    let mut open: Vec<usize> = Vec::new();
    for Step { entry, end, code } in tour {
        let at = if *end { FIELD } else { 0 };
        labels[*entry][at..at + FIELD].copy_from_slice(&packed(code));
        if *end {
            open.pop();
            continue;
        }
        if let Some(&parent) = open.last() {
            parents[*entry] = Some(parent);
            let start = labels[parent];
            labels[*entry][2 * FIELD..].copy_from_slice(&start[..FIELD]);
        }
        open.push(*entry);
    }
    (labels, parents)
}

// The pairs that are asked about: a half any two labels, a quarter a label and one above it, a quarter children of one parent.
fn pairs(random: &mut Random, parents: &[Option<usize>]) -> Vec<(u32, u32)> {
    let mut children = vec![Vec::new(); ENTRIES];
    for (entry, parent) in parents.iter().enumerate() {
        children[parent.unwrap_or(entry)].push(entry);
    }
    let mut pair = || {
        let v = random.below(ENTRIES);
        let parent = parents[v].unwrap_or(v);
        let u = match random.below(8) {
            0..4 => random.below(ENTRIES),
            4 => parent,
            5 => parents[parent].unwrap_or(parent),
            _ => children[parent][random.below(children[parent].len())],
        };
        (u as u32, v as u32)
    };
    (0..QUESTIONS).map(|_| pair()).collect()
}

// The digits of the two sides of a gap.
pub type Gap = [Vec<u8>; 2];

// What the calls are made with.
pub struct Set {
    pub codes: Vec<Vec<u8>>,
    pub gaps: Vec<Gap>,
    pub fields: Vec<[Field; 2]>, // of the gaps
    pub labels: Vec<Label>,
    pub pairs: Vec<(u32, u32)>,
}

impl Set {
    fn new(random: &mut Random, tour: Vec<Step>) -> Set {
        let (labels, parents) = labels(&tour);
        let pairs = pairs(random, &parents);
        let codes: Vec<Vec<u8>> = tour.into_iter().map(|step| step.code).collect();
        let mut gaps: Vec<Gap> = codes.windows(2).map(|sides| [sides[0].clone(), sides[1].clone()]).collect();
        gaps.retain(|[left, right]| between(left, right).len() <= LONGEST);
        if gaps.is_empty() {
            gaps = long_gaps(random);
        }
        let fields = gaps.iter().map(|[left, right]| [packed(left), packed(right)]).collect();
        Set { codes, gaps, fields, labels, pairs }
    }

    pub fn short(random: &mut Random) -> Set {
        let tour = short_tour(random);
        Set::new(random, tour)
    }

    // Codes of so many digits or more.
    pub fn long(random: &mut Random, shortest: usize) -> Set {
        let tour = long_tour(random, shortest);
        Set::new(random, tour)
    }

    // The least and the most digits of a code.
    pub fn lengths(&self) -> (usize, usize) {
        let lengths = || self.codes.iter().map(Vec::len);
        (lengths().min().unwrap(), lengths().max().unwrap())
    }
}
