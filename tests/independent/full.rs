// The largest tables and registers, and the deepest.
use crate::calls::Host;
use crate::counts::Event;
use crate::model::{size, Tree, MOST};
use crate::probe::{damaged, probe};
use crate::random::Random;
use crate::runs::{run, Habit, Run};
use crate::tables::{label_into, long_chain, random_table, rising_codes, Shape, SHAPES};

fn full_tables(host: &mut Host, random: &mut Random, shape: Shape) {
    let table = random_table(random, shape, MOST + 1);
    label_into(host, random, &table, size(MOST + 1));
    for room in [size(MOST) - 1, size(MOST), size(MOST) + 1] {
        label_into(host, random, &table[..3 * MOST], room);
    }
}

// More entries than a register may have, all else sound.
fn too_many(host: &mut Host, random: &mut Random) {
    let table = random_table(random, Shape::Any, MOST + 1);
    let bytes = Tree::labelled(&table).bytes();
    host.counts.note(Event::TooMany);
    probe(host, random, &bytes, &table[..1]);
    probe(host, random, &[&4096u32.to_le_bytes()[..], &bytes[4..]].concat(), &table[..1]);
}

// A chain with depth 63 or 64 at its end, as a table and as a register.
pub fn deepest(host: &mut Host, random: &mut Random) {
    let rows = random.within(64, 67);
    let table = long_chain(random, rows);
    let codes = rising_codes(random, 2 * rows);
    let bytes = Tree::with_codes(&table, &codes).bytes();
    let identities: Vec<u32> = table.chunks(3).map(|row| row[0]).collect();
    host.counts.note_if(rows > 64, Event::TooDeep);
    label_into(host, random, &table, size(rows));
    probe(host, random, &bytes, &identities);
}

pub fn largest(host: &mut Host, random: &mut Random) {
    for shape in SHAPES {
        full_tables(host, random, shape);
        let more = random.pick(&[3 * 104, 2 * 104 - 1, 104, 103, 1000]);
        let rows = random.within(MOST - 2, MOST);
        let start = Run::labelled(host, random, shape, rows, more);
        let habit = random.pick(&[Habit::Anywhere, Habit::Churn]);
        let end = run(host, random, start, habit, 40);
        for _ in 0..4 {
            damaged(host, random, end.register(), &end.identities());
        }
    }
    too_many(host, random);
}
