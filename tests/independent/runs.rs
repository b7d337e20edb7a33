// Runs of edits on one register: at random places and at the worst ones, refused ones among them.
use crate::calls::{Call, Edit, Host, INSERTIONS, LABEL_QUESTIONS, REGISTER_QUESTIONS};
use crate::codes::{between, read, refused, signed, Answer, Field, LABEL, LONGEST};
use crate::counts::Event;
use crate::fields::note_step;
use crate::model::{number_at, outcome, size, Tree, DEEPEST, ENTRY, HEADER, MOST};
use crate::random::Random;
use crate::tables::{label_into, random_table, Shape};
use std::collections::HashMap;

#[derive(Clone, Copy)]
pub enum Habit {
    Anywhere,
    Same(Call),
    Zigzag,
    Chain,
    Churn,
}

pub const HABITS: [Habit; 8] = [
    Habit::Anywhere,
    Habit::Same(Call::InsertFirst),
    Habit::Same(Call::InsertLast),
    Habit::Same(Call::InsertBefore),
    Habit::Same(Call::InsertAfter),
    Habit::Zigzag,
    Habit::Chain,
    Habit::Churn,
];

// The longest code there can be is m + k: m digits at the start of the run, k entries put in since.
pub struct Run {
    tree: Tree,
    store: Vec<u8>,
    longest: usize,
    put_in: usize,
    newest: u32,
    older: u32,
    anchor: u32,
    taken_out: Vec<u32>,
}

fn code_length(field: &[u8]) -> usize {
    match read(field) {
        Field::Code(code) => code.len(),
        _ => usize::MAX,
    }
}

// Each identity with its entry's 104 bytes; nothing if the buffer is too short for the count.
fn entries(bytes: &[u8]) -> Option<HashMap<u32, &[u8]>> {
    let counted = bytes.get(HEADER..size(number_at(bytes, 0) as usize))?;
    Some(counted.chunks(ENTRY).map(|entry| (number_at(entry, 0), entry)).collect())
}

impl Run {
    pub fn labelled(host: &mut Host, random: &mut Random, shape: Shape, rows: usize, more: usize) -> Run {
        let table = random_table(random, shape, rows);
        let store = label_into(host, random, &table, more + size(rows));
        let longest = (0..).find(|m| 3usize.pow(*m) > 2 * rows).unwrap() as usize;
        for entry in store[HEADER..size(rows)].chunks(ENTRY) {
            if code_length(&entry[8..40]).max(code_length(&entry[40..72])) > longest {
                host.fail(Call::Label, &format!("a code of {rows} rows is longer than {longest}"));
            }
        }
        Run::new(Tree::labelled(&table), store, longest)
    }

    pub fn of_tree(random: &mut Random, tree: Tree, more: usize) -> Run {
        let mut store = tree.bytes();
        let order = tree.in_order();
        let lengths = order.iter().map(|slot| tree.entry(*slot).start.len().max(tree.entry(*slot).end.len()));
        let longest = lengths.max().unwrap();
        store.extend((0..more).map(|_| random.byte()));
        Run::new(tree, store, longest)
    }

    fn new(tree: Tree, store: Vec<u8>, longest: usize) -> Run {
        let newest = tree.entry(*tree.in_order().last().unwrap()).identity;
        Run { tree, store, longest, put_in: 0, newest, older: newest, anchor: newest, taken_out: vec![] }
    }

    fn is_small(&self) -> bool {
        self.store.len() < 5000
    }

    pub fn register(&self) -> &[u8] {
        &self.store
    }

    pub fn identities(&self) -> Vec<u32> {
        self.tree.in_order().into_iter().map(|slot| self.tree.entry(slot).identity).collect()
    }

    // One edit in the first bytes of the register; what is promised of runs is checked on the archive's bytes alone.
    pub fn step(&mut self, host: &mut Host, edit: Edit, len: usize) -> Answer {
        let before = self.store[..len].to_vec();
        let mut lent = host.lend(&before);
        let got = host.edit(edit, &mut lent);
        self.check_promises(host, edit, got, &before, lent.content());
        let count = number_at(&before, 0) as usize;
        let neighbours = self.tree.neighbours_of(edit).map(|(left, right)| (left.clone(), right.clone()));
        let (want, after) = outcome(Some(&mut self.tree), edit, &before);
        host.same(edit.call, "register", &lent, &after);
        host.settle(edit.call, got, want);
        self.store[..len].copy_from_slice(&after);
        if let (Some((left, right)), true) = (neighbours, edit.call != Call::Delete) {
            self.note_insertion(host, edit, want, &left, &right);
            host.counts.note_if(want == refused(4) && len >= size(MOST + 1), Event::FullWithRoom);
            host.counts.note_if(want.is_ok() && count + 1 == MOST, Event::FullNow);
        }
        if want.is_ok() {
            self.follow(edit);
        }
        want
    }

    fn check_promises(&self, host: &mut Host, edit: Edit, got: i64, before: &[u8], after: &[u8]) {
        if got == signed(refused(8)) && self.longest + self.put_in < LONGEST {
            host.fail(edit.call, &format!("refused 8 at m + k = {}", self.longest + self.put_in));
        }
        if got < -100_000 {
            return;
        }
        let (Some(old), Some(new)) = (entries(before), entries(after)) else {
            host.fail(edit.call, "the count is larger than the register");
        };
        for (identity, entry) in old {
            let stays = edit.call != Call::Delete || identity != edit.target;
            if stays && new.get(&identity) != Some(&entry) {
                host.fail(edit.call, &format!("the entry of identity {identity} is no longer what it was"));
            }
        }
        let most = self.longest + self.put_in + 1;
        if let (Some(entry), true) = (new.get(&edit.identity), edit.call != Call::Delete) {
            if code_length(&entry[8..40]).max(code_length(&entry[40..72])) > most {
                host.fail(edit.call, &format!("a new code is none, or longer than m + k = {most}"));
            }
        }
    }

    fn note_insertion(&self, host: &mut Host, edit: Edit, want: Answer, left: &[u8], right: &[u8]) {
        let start = between(left, right);
        let end = between(&start, right);
        host.counts.note_if(want == refused(8) && start.len() <= LONGEST, Event::EndTooLong);
        if want.is_err() {
            return;
        }
        note_step(host, left, right);
        let slot = self.tree.find(edit.identity).unwrap();
        let behind = self.tree.find(edit.target).is_some_and(|target| !self.tree.is_leaf(target));
        host.counts.note_if(start.len().max(end.len()) == LONGEST, Event::LongestCode);
        host.counts.note_if(self.tree.depth(slot) == DEEPEST, Event::Deepest);
        host.counts.note_if(behind && edit.call == Call::InsertAfter, Event::BehindChildren);
        host.counts.note_if(self.taken_out.contains(&edit.identity), Event::IdentityAgain);
    }

    fn follow(&mut self, edit: Edit) {
        if edit.call == Call::Delete {
            self.taken_out.push(edit.target);
        } else {
            self.put_in += 1;
            self.older = self.newest;
            self.newest = edit.identity;
        }
    }
}

// The inverse modulo 2^32 of the factor that the proved table of identities has: numbers so far apart fall on one place of it.
const SAME_PLACE: u32 = 244_002_641;

// Which edit comes next.
impl Run {
    fn new_identity(&self, random: &mut Random, present: &[u32]) -> u32 {
        loop {
            let other = random.pick(present);
            let identity = match random.below(6) {
                0 if !self.taken_out.is_empty() => random.pick(&self.taken_out),
                1 => other.wrapping_add(1),
                2 => other ^ 1 << random.below(32),
                3 => other.wrapping_add(8192 * random.within(1, 63) as u32),
                4 => other.wrapping_add(SAME_PLACE.wrapping_mul(random.within(1, 63) as u32)),
                _ => random.number(),
            };
            if identity != 0 && !present.contains(&identity) {
                return identity;
            }
        }
    }

    // Anything, and mostly refused.
    fn any_edit(&self, random: &mut Random, present: &[u32]) -> Edit {
        let new = self.new_identity(random, present);
        let target = [random.pick(present), present[0], new, 0][random.below(4)];
        let identity = [random.pick(present), 0, new, new][random.below(4)];
        let call = if random.one_in(5) { Call::Delete } else { random.pick(&INSERTIONS) };
        Edit { call, target, identity, tag: random.number() }
    }

    fn deletion(&self, target: u32) -> Edit {
        Edit { call: Call::Delete, target, identity: 0, tag: 0 }
    }

    pub fn next_edit(&mut self, random: &mut Random, habit: Habit, step: usize) -> Edit {
        let present = self.identities();
        let there = |identity: u32, random: &mut Random| {
            if present.contains(&identity) {
                identity
            } else {
                random.pick(&present)
            }
        };
        (self.newest, self.anchor) = (there(self.newest, random), there(self.anchor, random));
        if random.one_in(9) {
            return self.any_edit(random, &present);
        }
        let (identity, tag) = (self.new_identity(random, &present), random.number() >> random.below(33).min(31));
        let (call, target) = match habit {
            Habit::Anywhere if random.one_in(3) => return self.deletion(random.pick(&present)),
            Habit::Anywhere => (random.pick(&INSERTIONS), random.pick(&present)),
            Habit::Same(call) => (call, self.anchor),
            Habit::Zigzag => (if step % 2 == 0 { Call::InsertAfter } else { Call::InsertBefore }, self.newest),
            Habit::Chain => (random.pick(&[Call::InsertFirst, Call::InsertLast]), self.newest),
            Habit::Churn if step % 2 == 1 => return self.deletion(self.older),
            Habit::Churn => (random.pick(&[Call::InsertAfter, Call::InsertBefore]), self.newest),
        };
        let rooted = target == present[0] && (call == Call::InsertBefore || call == Call::InsertAfter);
        Edit { call: if rooted { Call::InsertLast } else { call }, target, identity, tag }
    }

    // The whole buffer mostly; else just what the register takes, or the next entry, or a byte more or less.
    pub fn some_length(&self, random: &mut Random) -> usize {
        let count = number_at(&self.store, 0) as usize;
        let (now, next) = (size(count), size(count + 1));
        let all = self.store.len();
        random.pick(&[all, all, all, all, all, next, next + 1, next - 1, now]).min(all)
    }
}

// Questions on entries that are present, answered by the tree and not by codes.
impl Run {
    pub fn ask(&self, host: &mut Host, random: &mut Random) {
        let order = self.tree.in_order();
        let i = random.below(order.len());
        let j = [i, (i + 1) % order.len(), random.below(order.len()), random.below(order.len())][random.below(4)];
        let (u, v) = (order[i], order[j]);
        for call in LABEL_QUESTIONS {
            let want = match call {
                Call::Order => (i as i64 - j as i64).signum(),
                Call::Above => self.tree.above(u, v).into(),
                Call::Parent => self.tree.parent(u, v).into(),
                _ => self.tree.sibling(u, v).into(),
            };
            self.ask_pair(host, call, i, j, Ok(want));
        }
        let (x, y) = (self.tree.entry(u).identity, self.tree.entry(v).identity);
        for call in REGISTER_QUESTIONS {
            let want = match call {
                Call::Place => i as i64,
                Call::Depth => self.tree.depth(u) as i64,
                _ => j as i64 - i as i64,
            };
            host.ask_register(call, &self.store, x, y, Ok(want));
        }
    }

    // The labels where they stand in a small register, or copies of them.
    fn ask_pair(&self, host: &mut Host, call: Call, i: usize, j: usize, want: Answer) {
        let (u, v) = (size(i) + 8, size(j) + 8);
        if self.is_small() {
            return host.ask_labels(call, &self.store, u..u + LABEL, v..v + LABEL, want);
        }
        let both = [&self.store[u..u + LABEL], &self.store[v..v + LABEL]].concat();
        host.ask_labels(call, &both, 0..LABEL, LABEL..2 * LABEL, want);
    }

    // An identity that no entry has, first or second.
    pub fn ask_absent(&self, host: &mut Host, random: &mut Random) {
        let present = self.identities();
        let (x, y) = (self.new_identity(random, &present), random.pick(&present));
        for call in REGISTER_QUESTIONS {
            host.ask_register(call, &self.store, x, y, refused(6));
        }
        host.ask_register(Call::Distance, &self.store, y, x, refused(6));
    }

    // The register's bytes are read back as the tree that the edits made.
    pub fn check_tree(&self, host: &mut Host, call: Call) {
        if !Tree::read(&self.store).is_some_and(|tree| tree.same(&self.tree)) {
            host.fail(call, "the register does not hold the tree");
        }
    }
}

pub fn run(host: &mut Host, random: &mut Random, mut run: Run, habit: Habit, steps: usize) -> Run {
    for step in 0..steps {
        let edit = run.next_edit(random, habit, step);
        let len = run.some_length(random);
        run.step(host, edit, len).ok();
        run.ask(host, random);
        if random.one_in(16) {
            run.ask_absent(host, random);
        }
        if run.is_small() || step % 16 == 0 {
            run.check_tree(host, edit.call);
        }
    }
    run
}
