// The questions on a register: agreement of all ways, then times.
use crate::plain::registers as plain;
use crate::plant::{self, ENTRY, HEADER, MOST, NO_REGISTER, NO_TARGET};
use crate::random::Random;
use crate::shapes::{damaged, identity, lengthened, register, SHAPES};
use crate::time::{best, clocked, Plan, Timed, Way};
use std::hint::black_box;

const ROUNDS: usize = 4;
const ENTRIES_A_ROUND: usize = 40_960;
const DAMAGED: usize = 1_500;

// With one identity or two.
type Call = fn(&[u8], [u32; 2]) -> i32;

// Each question as it is proved, then in Rust in each way.
pub const QUESTIONS: [(&str, [(&str, Call); 3]); 3] = [
    (
        "plant_place",
        [
            ("proved", |register, [x, _]| plant::place(register, x)),
            ("one pass", |register, [x, _]| plain::place_at_once(register, x)),
            ("passes", |register, [x, _]| plain::place(register, x)),
        ],
    ),
    (
        "plant_depth",
        [
            ("proved", |register, [x, _]| plant::depth(register, x)),
            ("one pass", |register, [x, _]| plain::depth_at_once(register, x)),
            ("passes", |register, [x, _]| plain::depth(register, x)),
        ],
    ),
    (
        "plant_distance",
        [
            ("proved", |register, [x, y]| plant::distance(register, x, y)),
            ("one pass", |register, [x, y]| plain::distance_at_once(register, x, y)),
            ("passes", |register, [x, y]| plain::distance(register, x, y)),
        ],
    ),
];

// Every way gives the same answer; what each question answers.
fn agreed(register: &[u8], identities: [u32; 2]) -> [i32; 3] {
    QUESTIONS.map(|(question, ways)| {
        let answers = ways.map(|(_, way)| way(register, identities));
        for ((name, _), answer) in ways.iter().zip(answers) {
            assert_eq!(answer, answers[0], "{question}, {name}: of {identities:?} in {register:?}");
        }
        answers[0]
    })
}

fn check_sound(random: &mut Random, register: &[u8]) {
    let entries = (register.len() - HEADER) / ENTRY;
    let last = identity(register, entries - 1);
    for x in (0..entries).step_by(1 + entries / 50).chain([entries - 1]) {
        let y = random.below(entries);
        let [place, depth, distance] = agreed(register, [identity(register, x), identity(register, y)]);
        assert_eq!([place, distance], [x as i32, y as i32 - x as i32]);
        assert!(depth >= 0);
    }
    assert_eq!(agreed(register, [0, last]), [NO_TARGET; 3]);
    assert_eq!(agreed(register, [last, 0])[2], NO_TARGET);
    assert_eq!(agreed(&register[..register.len() - 1], [last; 2]), [NO_REGISTER; 3]);
}

// Registers with many identities, with one that is absent, and with one change.
pub fn check(random: &mut Random) {
    for shape in SHAPES {
        for entries in (1..=60).chain([1_000, MOST - 1, MOST]) {
            let first = register(random, shape, entries);
            check_sound(random, &lengthened(&first));
            check_sound(random, &first);
        }
        for _ in 0..DAMAGED {
            let damaged = damaged(random, shape);
            let entries = (damaged.len() - HEADER) / ENTRY;
            let mut any = || identity(&damaged, random.below(entries));
            agreed(&damaged, [any(), any()]);
        }
    }
}

// Asks for the last entry; the distance is from it to the first.
pub fn time(ways: &[(&'static str, Call); 3], register: &[u8]) -> Timed {
    let entries = (register.len() - HEADER) / ENTRY;
    let identities = [identity(register, entries - 1), identity(register, 0)];
    let calls = (ENTRIES_A_ROUND / entries).min(4_096);
    let ways = ways.map(|(name, way)| {
        let call = move |_| i64::from(way(black_box(register), black_box(identities)));
        Way::new(name, move |_| clocked(|| (0..calls).map(call).sum()))
    });
    best(Plan { rounds: ROUNDS, pieces: 1, calls }, &ways)
}
