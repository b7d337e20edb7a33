// The calls on codes and labels: agreement of all ways, then times.
use crate::plain::fields::{packed, Field};
use crate::plain::labels as plain;
use crate::plain::labels::{Bytes, Wide, Words};
use crate::plant::{self, CODE_LENGTH, FIELD, LONGEST, NOT_BELOW, NO_LABEL, ROOM};
use crate::random::Random;
use crate::time::{best, clocked, Plan, Timed, Way};
use crate::tours::{between, Gap, Set, ENTRIES, QUESTIONS};
use std::hint::black_box;

const CHECKED: usize = 100_000;
const DAMAGED: usize = 5_000;
const ROUNDS: usize = 2;
const PIECES: usize = 20;
const PIECE: usize = QUESTIONS / PIECES;

pub const CALLS: [&str; 7] =
    ["plant_pack", "plant_unpack", "plant_between", "plant_order", "plant_above", "plant_parent", "plant_sibling"];

type Question = fn(&[u8], &[u8]) -> i32;

// A question as it is proved, then in Rust in each way.
const QUESTION: [[Question; 4]; 4] = [
    [plant::order, plain::order::<Bytes>, plain::order::<Words>, plain::order::<Wide>],
    [plant::above, plain::above::<Bytes>, plain::above::<Words>, plain::above::<Wide>],
    [plant::parent, plain::parent::<Bytes>, plain::parent::<Words>, plain::parent::<Wide>],
    [plant::sibling, plain::sibling::<Bytes>, plain::sibling::<Words>, plain::sibling::<Wide>],
];

// Every way gives the same answer to each question; what it is.
fn agreed(u: &[u8], v: &[u8]) -> [i32; 4] {
    QUESTION.map(|ways| {
        let answers = ways.map(|way| way(u, v));
        assert!(answers.iter().all(|answer| *answer == answers[0]), "{answers:?} on {u:x?} {v:x?}");
        answers[0]
    })
}

// Every call gives the same answer and the same bytes.
fn agreed_bytes<const N: usize>(room: usize, calls: [&dyn Fn(&mut [u8]) -> i32; N]) -> (i32, Vec<u8>) {
    let results = calls.map(|call| {
        let mut bytes: Vec<u8> = (0..room as u8).collect();
        (call(&mut bytes), bytes)
    });
    assert!(results.iter().all(|result| *result == results[0]), "{results:x?}");
    results[0].clone()
}

fn agreed_between(left: &[u8], right: &[u8], room: usize) -> (i32, Vec<u8>) {
    let proved = |field: &mut [u8]| plant::between(left, right, field);
    let packed = |field: &mut [u8]| plain::between_packed(left, right, field);
    let digits = |field: &mut [u8]| plain::between_digits(left, right, field);
    agreed_bytes(room, [&proved, &packed, &digits])
}

fn agreed_pack(digits: &[u8], room: usize) -> (i32, Vec<u8>) {
    agreed_bytes(room, [&|field| plant::pack(digits, field), &|field| plain::pack(digits, field)])
}

fn agreed_unpack(field: &[u8], room: usize) -> (i32, Vec<u8>) {
    agreed_bytes(room, [&|digits| plant::unpack(field, digits), &|digits| plain::unpack(field, digits)])
}

// Asked pairs, then damaged labels on either side, empty parent starts and wrong lengths.
fn check_labels(random: &mut Random, set: &Set) {
    for &(u, v) in &set.pairs[..CHECKED] {
        let answers = agreed(&set.labels[u as usize], &set.labels[v as usize]);
        assert!(answers.iter().all(|answer| (-1..=1).contains(answer)), "a sound label is refused");
    }
    for _ in 0..DAMAGED {
        let sound = set.labels[random.below(ENTRIES)];
        let mut damaged = set.labels[random.below(ENTRIES)];
        random.flip(&mut damaged);
        agreed(&damaged, &sound);
        agreed(&sound, &damaged);
        let [root, other] = [sound, set.labels[random.below(ENTRIES)]].map(|mut label| {
            label[2 * FIELD..].fill(0);
            label
        });
        let [.., sibling] = agreed(&root, &other);
        assert_eq!(sibling, 0, "two empty parent starts are no match");
    }
    let long = [set.labels[0], set.labels[1]].concat();
    for n in [0, 1, 31, 32, 64, 95, 97, 192] {
        assert_eq!(agreed(&long[..n], &set.labels[0]), [NO_LABEL; 4]);
        assert_eq!(agreed(&set.labels[0], &long[..n]), [NO_LABEL; 4]);
    }
}

// A gap against the list form, both ways round, and with short room.
fn check_gap([left, right]: &Gap) {
    let made = between(left, right);
    let (left, right) = (packed(left), packed(right));
    let (answer, field) = agreed_between(&left, &right, FIELD + 3);
    assert_eq!((answer, &field[..FIELD]), (made.len() as i32, &packed(&made)[..]));
    assert_eq!(agreed_between(&right, &left, FIELD).0, NOT_BELOW);
    assert_eq!(agreed_between(&left, &right, FIELD - 1).0, ROOM);
}

// A code packed and unpacked, whole and with a bit flipped, and beside another code.
fn check_code(random: &mut Random, code: &[u8], other: &Field) {
    let mut digits = code.to_vec();
    assert_eq!(agreed_pack(&digits, FIELD + 3).0, code.len() as i32);
    random.flip(&mut digits);
    agreed_pack(&digits, FIELD + 3);
    let mut field = packed(code);
    let (answer, read) = agreed_unpack(&field, LONGEST + 3);
    assert_eq!((answer, &read[..code.len()]), (code.len() as i32, code));
    assert_eq!(agreed_unpack(&field, code.len() - 1).0, ROOM);
    agreed_between(&field, other, FIELD);
    random.flip(&mut field);
    agreed_unpack(&field, LONGEST);
    agreed_between(&field, other, FIELD);
    agreed_between(other, &field, FIELD);
}

// Both sides of the limits of length.
fn check_lengths() {
    for n in [0, 1, FIELD - 1, FIELD + 1, LONGEST, LONGEST + 1] {
        agreed_pack(&vec![2; n], FIELD);
        agreed_unpack(&vec![0; n], LONGEST);
        agreed_between(&vec![0; n], &[0; FIELD], FIELD);
        agreed_between(&[0; FIELD], &vec![0; n], FIELD);
    }
    agreed_unpack(&[0xAA; FIELD], LONGEST + 1);
    let most = packed(&[2; LONGEST]);
    assert_eq!(agreed_between(&[0; FIELD], &most, FIELD).0, CODE_LENGTH);
    assert_eq!(agreed_between(&most, &[0; FIELD], FIELD).0, LONGEST as i32);
}

pub fn check(random: &mut Random, set: &Set) {
    check_labels(random, set);
    set.gaps.iter().for_each(check_gap);
    for _ in 0..DAMAGED {
        let other = packed(&set.codes[random.below(set.codes.len())]);
        let at = random.below(set.codes.len());
        check_code(random, &set.codes[at], &other);
    }
    check_lengths();
}

#[inline(always)]
fn ask(set: &Set, piece: usize, question: impl Fn(&[u8], &[u8]) -> i32) -> (f64, i64) {
    let answer = |&(u, v): &(u32, u32)| question(&set.labels[u as usize], &set.labels[v as usize]);
    let pairs = &set.pairs[piece * PIECE..(piece + 1) * PIECE];
    clocked(|| pairs.iter().map(|pair| i64::from(black_box(answer(pair)))).sum())
}

// A call that writes, on inputs in the order of the questions.
#[inline(always)]
fn write<T>(set: &Set, piece: usize, inputs: &[T], call: impl Fn(&T, &mut [u8]) -> i32) -> (f64, i64) {
    let mut output = [0; LONGEST];
    let pairs = &set.pairs[piece * PIECE..(piece + 1) * PIECE];
    let mut one = |&(u, _): &(u32, u32)| {
        let answer = call(&inputs[u as usize], &mut output);
        black_box(&mut output);
        i64::from(answer)
    };
    clocked(|| pairs.iter().map(&mut one).sum())
}

// The calls are direct on both sides.
macro_rules! question {
    ($set:expr, $question:ident) => {
        vec![
            Way::new("proved", move |piece| ask($set, piece, plant::$question)),
            Way::new("bytes", move |piece| ask($set, piece, plain::$question::<Bytes>)),
            Way::new("words", move |piece| ask($set, piece, plain::$question::<Words>)),
            Way::new("wide", move |piece| ask($set, piece, plain::$question::<Wide>)),
        ]
    };
}

fn packing(set: &Set) -> Vec<Way<'_>> {
    vec![
        Way::new("proved", |piece| write(set, piece, &set.codes, |code, field| plant::pack(code, field))),
        Way::new("plain", |piece| write(set, piece, &set.codes, |code, field| plain::pack(code, field))),
    ]
}

fn unpacking<'a>(set: &'a Set, fields: &'a [Field]) -> Vec<Way<'a>> {
    vec![
        Way::new("proved", move |piece| write(set, piece, fields, |field, digits| plant::unpack(field, digits))),
        Way::new("plain", move |piece| write(set, piece, fields, |field, digits| plain::unpack(field, digits))),
    ]
}

fn making(set: &Set) -> Vec<Way<'_>> {
    vec![
        Way::new("proved", |piece| write(set, piece, &set.fields, |[l, r], field| plant::between(l, r, field))),
        Way::new("packed", |piece| write(set, piece, &set.fields, |[l, r], field| plain::between_packed(l, r, field))),
        Way::new("digits", |piece| write(set, piece, &set.fields, |[l, r], field| plain::between_digits(l, r, field))),
    ]
}

pub fn time(call: &str, set: &Set) -> Timed {
    let fields: Vec<Field> = set.codes.iter().map(|code| packed(code)).collect();
    let ways = match call {
        "plant_pack" => packing(set),
        "plant_unpack" => unpacking(set, &fields),
        "plant_between" => making(set),
        "plant_order" => question!(set, order),
        "plant_above" => question!(set, above),
        "plant_parent" => question!(set, parent),
        _ => question!(set, sibling),
    };
    best(Plan { rounds: ROUNDS, pieces: PIECES, calls: PIECE }, &ways)
}
