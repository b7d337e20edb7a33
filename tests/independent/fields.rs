// Random digits, fields and labels, sound and damaged, through the calls on codes and labels.
use crate::calls::{Host, LABEL_QUESTIONS};
use crate::codes::{below, packed, relation, Digits, FIELD, LABEL};
use crate::counts::Event;
use crate::damage::{cut, spoil_field, spoil_label};
use crate::random::Random;
use crate::tables::{code_of, near, random_code};

fn room(random: &mut Random, need: usize) -> Vec<u8> {
    let length = random.pick(&[need, need, need, need + 1, need.saturating_sub(1), 0, need / 2, need + 40]);
    (0..length).map(|_| random.byte()).collect()
}

pub fn pack_any(host: &mut Host, random: &mut Random) {
    let mut digits = random_code(random);
    let at = random.below(digits.len());
    match random.below(10) {
        0 => digits[at] = random.pick(&[0, 4, 5, 66, 129, 255, b'2']),
        1 => *digits.last_mut().unwrap() = random.pick(&[0, 1, 1, 4]),
        2 => digits = code_of(random, 128 + at % 3),
        3 => digits.truncate(at),
        _ => {}
    }
    let field = room(random, FIELD);
    host.pack(&digits, &field);
}

// A field, mostly sound, in a buffer mostly of 32 bytes.
fn any_field(random: &mut Random, code: &[u8]) -> Vec<u8> {
    let mut field = packed(code).to_vec();
    match random.below(16) {
        0 | 1 => spoil_field(random, &mut field),
        2 => field = cut(&field).to_vec(),
        3 => field.resize(random.pick(&[FIELD + 1, FIELD - 1, 2 * FIELD, 0]), 0),
        4 => field.fill_with(|| random.byte()),
        5 => field.fill(0),
        _ => {}
    }
    field
}

pub fn unpack_any(host: &mut Host, random: &mut Random) {
    let code = random_code(random);
    let field = any_field(random, &code);
    let digits = room(random, code.len());
    host.unpack(&field, &digits);
}

fn any_side(random: &mut Random, code: &[u8]) -> Vec<u8> {
    match random.below(8) {
        0 => any_field(random, code),
        1 => vec![0; FIELD],
        _ => packed(code).to_vec(),
    }
}

pub fn between_any(host: &mut Host, random: &mut Random) {
    let mut left = random_code(random);
    let mut right = if random.one_in(3) { random_code(random) } else { near(random, &left) };
    if below(&right, &left) && !random.one_in(8) {
        std::mem::swap(&mut left, &mut right);
    }
    let (l, r) = (any_side(random, &left), any_side(random, &right));
    let field = room(random, FIELD);
    let sides = [l.clone(), r.clone()].concat();
    host.counts.note_if(l == [0; FIELD] && r == [0; FIELD], Event::BothOpen);
    if random.one_in(16) {
        host.between(&sides, 0..l.len(), 0..l.len(), &field);
    } else {
        host.between(&sides, 0..l.len(), l.len()..sides.len(), &field);
    }
    if random.one_in(16) && sides.len() > FIELD {
        let from = sides.len() - FIELD;
        host.between(&sides, 0..FIELD, from..sides.len(), &field);
    }
}

fn label_bytes(start: &[u8], end: &[u8], parent: &[u8]) -> Vec<u8> {
    [packed(start), packed(end), packed(parent)].concat()
}

// A sound label near some code.
fn any_label(random: &mut Random, around: &Digits) -> Vec<u8> {
    let mut codes = [near(random, around), near(random, around), near(random, around)];
    codes.sort();
    let [mut parent, start, mut end] = codes;
    if start == end {
        end = [start.clone(), code_of(random, 1)].concat();
        end.truncate(127);
    }
    if parent == start || random.one_in(8) {
        parent = Digits::new();
    }
    label_bytes(&start, &end, &parent)
}

// A label that stands to another as a child, a sibling, an equal or nothing.
fn kin(random: &mut Random, label: &[u8], around: &Digits) -> Vec<u8> {
    let mut other = any_label(random, around);
    match random.below(5) {
        0 => other[64..].copy_from_slice(&label[..32]),
        1 => other[64..].copy_from_slice(&label[64..]),
        2 => other[..32].copy_from_slice(&label[..32]),
        3 => other.copy_from_slice(label),
        _ => {}
    }
    other
}

pub fn ask_any(host: &mut Host, random: &mut Random) {
    let around = random_code(random);
    let mut u = any_label(random, &around);
    let mut v = kin(random, &u, &around);
    if random.one_in(2) {
        std::mem::swap(&mut u, &mut v);
    }
    for label in [&mut u, &mut v] {
        if random.one_in(5) {
            spoil_label(random, label);
        }
    }
    let both = [u.clone(), v.clone()].concat();
    for call in LABEL_QUESTIONS {
        host.ask_labels(call, &both, 0..u.len(), u.len()..both.len(), relation(call, &u, &v));
        host.ask_labels(call, &both, u.len()..both.len(), 0..u.len(), relation(call, &v, &u));
    }
}

// One label's parent start is the start of the other, in the same 32 bytes; and a label beside itself.
pub fn ask_overlapping(host: &mut Host, random: &mut Random) {
    let around = random_code(random);
    let lower = any_label(random, &around);
    let upper = any_label(random, &around);
    let bytes = [&lower[..], &upper[FIELD..]].concat();
    for call in LABEL_QUESTIONS {
        let (u, v) = (0..LABEL, 2 * FIELD..2 * FIELD + LABEL);
        let want = relation(call, &bytes[v.clone()], &bytes[u.clone()]);
        host.ask_labels(call, &bytes, v, u.clone(), want);
        host.ask_labels(call, &bytes, u.clone(), u.clone(), relation(call, &lower, &lower));
    }
}

pub fn note_step(host: &mut Host, left: &[u8], right: &[u8]) {
    let event = match (left.len().cmp(&right.len()), left.last(), right.last()) {
        (std::cmp::Ordering::Less, _, Some(2)) => Event::ShorterLeft2,
        (std::cmp::Ordering::Less, _, _) => Event::ShorterLeft3,
        (std::cmp::Ordering::Equal, _, _) => Event::EqualLengths,
        (_, Some(2), _) => Event::LongerLeft2,
        _ => Event::LongerLeft3,
    };
    host.counts.note(event);
}
