// The edits of a register: agreement of all ways, then times.
use crate::plain::edits::{apply_at_once, apply_in_passes};
use crate::plain::registers::number;
use crate::plant::{self, Edit, Place, ENTRY, HEADER, MOST};
use crate::random::Random;
use crate::shapes::{damaged, identity, lengthened, register, SHAPES};
use crate::time::{best, clocked, Plan, Timed, Way};
use std::cell::RefCell;
use std::hint::black_box;

const ROUNDS: usize = 4;
const ENTRIES_A_ROUND: usize = 20_480;
const IN_A_ROW: usize = 32_768; // bytes of the registers that are edited one after another
const RUNS: usize = 150;
const EDITS: usize = 40;

const PLACES: [Place; 4] = [Place::First, Place::Last, Place::Before, Place::After];

// The proved call first.
const WAYS: [(&str, fn(&mut [u8], Edit) -> i32); 3] =
    [("proved", plant::apply), ("one pass", apply_at_once), ("passes", apply_in_passes)];

// Every way gives the same answer and the same bytes; the answer, and the bytes in place of the register.
fn agreed(register: &mut Vec<u8>, edit: Edit) -> i32 {
    let results = WAYS.map(|(_, way)| {
        let mut after = register.clone();
        (way(&mut after, edit), after)
    });
    for ((name, _), (answer, after)) in WAYS.iter().zip(&results) {
        assert_eq!(*answer, results[0].0, "{name}: another answer, {edit:?} of {register:?}");
        assert!(*after == results[0].1, "{name}: other bytes, {edit:?} of {register:?}");
    }
    let [(answer, after), ..] = results;
    *register = after;
    answer
}

fn random_edit(random: &mut Random, register: &[u8]) -> Edit {
    let entries = (number(register, 0) as usize).clamp(1, (register.len() - HEADER) / ENTRY);
    let known = identity(register, random.below(entries));
    let target = if random.below(12) == 0 { random.next() as u32 } else { known };
    let place = match random.below(6) {
        k @ 0..4 => PLACES[k],
        _ => return Edit::Delete { target },
    };
    let identity = if random.below(12) == 0 { identity(register, random.below(entries)) } else { random.next() as u32 };
    Edit::Insert { place, target, identity, tag: random.next() as u32 }
}

// Runs of edits of sound registers, and an edit of each damaged one; how many edits were accepted and refused.
pub fn check(random: &mut Random) -> [usize; 2] {
    let mut tally = [0; 2];
    for shape in SHAPES {
        for run in 0..RUNS {
            let entries = 1 + random.below(80);
            let mut grown = register(random, shape, entries);
            if run % 3 == 0 {
                grown = lengthened(&grown);
            }
            grown.resize(grown.len() + random.below(EDITS * ENTRY), 7);
            for _ in 0..EDITS {
                let edit = random_edit(random, &grown);
                tally[(agreed(&mut grown, edit) < 0) as usize] += 1;
            }
            let mut damaged = damaged(random, shape);
            damaged.resize(damaged.len() + ENTRY, 7);
            let edit = random_edit(random, &damaged);
            tally[(agreed(&mut damaged, edit) < 0) as usize] += 1;
        }
    }
    tally
}

// An entry is put in or taken out, under the root or beside the entry in the middle.
pub struct Call {
    pub name: &'static str,
    deletes: bool,
    place: Place,
}

pub const CALLS: [Call; 7] = [
    Call { name: "plant_insert_first", deletes: false, place: Place::First },
    Call { name: "plant_insert_last", deletes: false, place: Place::Last },
    Call { name: "plant_insert_before", deletes: false, place: Place::Before },
    Call { name: "plant_insert_after", deletes: false, place: Place::After },
    Call { name: "plant_delete", deletes: true, place: Place::Before },
    Call { name: "plant_delete, first", deletes: true, place: Place::First },
    Call { name: "plant_delete, last", deletes: true, place: Place::Last },
];

fn unused(random: &mut Random, register: &[u8], entries: usize) -> u32 {
    loop {
        let new = random.next() as u32;
        if new != 0 && (0..entries).all(|i| identity(register, i) != new) {
            return new;
        }
    }
}

// Copies of the register, a few in a row where they are small, are edited one after another; the copying is not timed.
fn timed(register: &[u8], edit: Edit) -> Timed {
    let copies = (IN_A_ROW / register.len()).clamp(1, 64);
    let first = register.repeat(copies);
    let edited = RefCell::new(first.clone());
    let runs = (ENTRIES_A_ROUND * ENTRY / first.len()).clamp(1, 64);
    let ways = WAYS.map(|(name, way)| {
        let (first, edited) = (&first, &edited);
        let run = move |_| {
            let mut edited = edited.borrow_mut();
            edited.copy_from_slice(first);
            let one = |copy| i64::from(way(black_box(copy), black_box(edit)));
            clocked(|| edited.chunks_mut(register.len()).map(one).sum())
        };
        Way::new(name, move |_| (0..runs).map(run).fold((0.0, 0), |(took, sum), (t, s)| (took + t, sum + s)))
    });
    best(Plan { rounds: ROUNDS, pieces: 1, calls: runs * copies }, &ways)
}

// So many entries beside the one that is put in or taken out, 4,095 at most; nothing where there is no target but the root.
pub fn time(random: &mut Random, call: &Call, shape: &str, entries: usize) -> Option<Timed> {
    let entries = entries.min(MOST - 1);
    let place = if call.deletes && entries == 1 { Place::First } else { call.place };
    let under = matches!(place, Place::First | Place::Last);
    if !under && entries == 1 {
        return None;
    }
    let mut register = register(random, shape, entries);
    register.resize(register.len() + ENTRY, 0);
    let target = identity(&register, if under { 0 } else { entries / 2 });
    let new = unused(random, &register, entries);
    let insertion = Edit::Insert { place, target, identity: new, tag: 1 };
    if !call.deletes {
        return Some(timed(&register, insertion));
    }
    assert!(plant::apply(&mut register, insertion) > 0);
    Some(timed(&register, Edit::Delete { target: new }))
}
