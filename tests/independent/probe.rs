// Every call on a register's bytes, sound or not, as the model reads them.
use crate::calls::{Call, Edit, Host, INSERTIONS, REGISTER_QUESTIONS};
use crate::codes::{refused, Answer};
use crate::counts::Event;
use crate::damage::spoil_register;
use crate::model::{outcome, Tree};
use crate::random::Random;

// What a register question answers by the tree, or without one.
fn question(tree: Option<&Tree>, call: Call, x: u32, y: u32) -> Answer {
    let Some(tree) = tree else {
        return refused(5);
    };
    let order = tree.in_order();
    let place = |identity: u32| order.iter().position(|slot| tree.entry(*slot).identity == identity);
    let (Some(at), Some(to)) = (place(x), place(if call == Call::Distance { y } else { x })) else {
        return refused(6);
    };
    Ok(match call {
        Call::Place => at as i64,
        Call::Depth => tree.depth(order[at]) as i64,
        _ => to as i64 - at as i64,
    })
}

// The identities are those to ask for, and to aim edits at.
pub fn probe(host: &mut Host, random: &mut Random, bytes: &[u8], identities: &[u32]) {
    let tree = Tree::read(bytes);
    let some = |random: &mut Random| if random.one_in(6) { random.number() >> 28 } else { random.pick(identities) };
    for call in REGISTER_QUESTIONS {
        let (x, y) = (some(random), some(random));
        host.ask_register(call, bytes, x, y, question(tree.as_ref(), call, x, y));
    }
    for call in INSERTIONS.into_iter().chain([Call::Delete]) {
        let identity = if random.one_in(4) { some(random) } else { random.number() };
        let edit = Edit { call, target: some(random), identity, tag: random.number() };
        let mut lent = host.lend(bytes);
        let got = host.edit(edit, &mut lent);
        let (want, after) = outcome(tree.clone().as_mut(), edit, bytes);
        host.same(call, "register", &lent, &after);
        host.settle(call, got, want);
    }
}

// A copy of a sound register with one or two things damaged.
pub fn damaged(host: &mut Host, random: &mut Random, register: &[u8], identities: &[u32]) {
    let mut bytes = register.to_vec();
    spoil_register(random, &mut bytes);
    if random.one_in(4) {
        spoil_register(random, &mut bytes);
    }
    let sound = Tree::read(&bytes).is_some();
    host.counts.note(if sound { Event::DamagedSound } else { Event::DamagedUnsound });
    probe(host, random, &bytes, identities);
}
