// The C calls. Every lent buffer stands between guard bytes; answers and whole buffers are compared with the model's.
use crate::codes::{self, signed, Answer};
use crate::counts::Counts;
use std::ops::Range;

#[derive(Clone, Copy, Debug, PartialEq)]
pub enum Call {
    Pack,
    Unpack,
    Between,
    Order,
    Above,
    Parent,
    Sibling,
    Place,
    Depth,
    Distance,
    Label,
    InsertFirst,
    InsertLast,
    InsertBefore,
    InsertAfter,
    Delete,
}

pub const LABEL_QUESTIONS: [Call; 4] = [Call::Order, Call::Above, Call::Parent, Call::Sibling];
pub const REGISTER_QUESTIONS: [Call; 3] = [Call::Place, Call::Depth, Call::Distance];
pub const INSERTIONS: [Call; 4] = [Call::InsertFirst, Call::InsertLast, Call::InsertBefore, Call::InsertAfter];

// An insertion, or a deletion, for which identity and tag do not count.
#[derive(Clone, Copy, Debug)]
pub struct Edit {
    pub call: Call,
    pub target: u32,
    pub identity: u32,
    pub tag: u32,
}

mod archive {
    type In = *const u8;
    type Out = *mut u8;
    extern "C" {
        pub fn plant_pack(digits: In, n: usize, field: Out, len: usize) -> i32;
        pub fn plant_unpack(field: In, len: usize, digits: Out, n: usize) -> i32;
        pub fn plant_between(left: In, l_len: usize, right: In, r_len: usize, field: Out, len: usize) -> i32;
        pub fn plant_order(u: In, u_len: usize, v: In, v_len: usize) -> i32;
        pub fn plant_above(u: In, u_len: usize, v: In, v_len: usize) -> i32;
        pub fn plant_parent(u: In, u_len: usize, v: In, v_len: usize) -> i32;
        pub fn plant_sibling(u: In, u_len: usize, v: In, v_len: usize) -> i32;
        pub fn plant_place(reg: In, len: usize, identity: u32) -> i32;
        pub fn plant_depth(reg: In, len: usize, identity: u32) -> i32;
        pub fn plant_distance(reg: In, len: usize, x: u32, y: u32) -> i32;
        pub fn plant_label(table: *const u32, numbers: usize, reg: Out, len: usize) -> i64;
        pub fn plant_insert_first(reg: Out, len: usize, target: u32, identity: u32, tag: u32) -> i32;
        pub fn plant_insert_last(reg: Out, len: usize, target: u32, identity: u32, tag: u32) -> i32;
        pub fn plant_insert_before(reg: Out, len: usize, target: u32, identity: u32, tag: u32) -> i32;
        pub fn plant_insert_after(reg: Out, len: usize, target: u32, identity: u32, tag: u32) -> i32;
        pub fn plant_delete(reg: Out, len: usize, target: u32) -> i32;
    }
}

type Convert = unsafe extern "C" fn(*const u8, usize, *mut u8, usize) -> i32;

const GUARD: usize = 128;

// A lent buffer: guard bytes, which differ from call to call, before and behind it.
pub struct Lent<T> {
    whole: Vec<T>,
    from: usize,
    len: usize,
    salt: u64,
}

fn guard(salt: u64, i: usize) -> u8 {
    (salt.wrapping_mul(151) as u8) ^ (i as u8).wrapping_mul(29)
}

impl<T: Copy + PartialEq + From<u8> + Into<u64>> Lent<T> {
    fn new(content: &[T], salt: u64) -> Lent<T> {
        let (from, len) = (GUARD + (salt % 8) as usize, content.len());
        let mut whole: Vec<T> = Vec::with_capacity(from + len + GUARD);
        whole.extend((0..from).map(|i| T::from(guard(salt, i))));
        whole.extend_from_slice(content);
        whole.extend((0..GUARD).map(|i| T::from(guard(salt, i))));
        Lent { whole, from, len, salt }
    }

    pub fn content(&self) -> &[T] {
        &self.whole[self.from..self.from + self.len]
    }

    fn get_mut(&mut self) -> *mut T {
        self.whole[self.from..].as_mut_ptr()
    }

    // Two parts of the buffer, within it.
    fn two(&mut self, one: &Range<usize>, other: &Range<usize>) -> (*const T, *const T) {
        assert!(one.end <= self.len && other.end <= self.len);
        let at = self.get_mut();
        (at.wrapping_add(one.start), at.wrapping_add(other.start))
    }

    // The first place, from the buffer's own start, where something else stands than should: place, found, wanted.
    fn difference(&self, want: &[T]) -> Option<(i64, u64, u64)> {
        let behind = self.from + self.len;
        let wanted = |i: usize| match i {
            i if i < self.from => T::from(guard(self.salt, i)),
            i if i < behind => want[i - self.from],
            i => T::from(guard(self.salt, i - behind)),
        };
        let sides = (0..self.from).chain(behind..behind + GUARD).all(|i| self.whole[i] == wanted(i));
        if sides && self.content() == want {
            return None;
        }
        let i = (0..self.whole.len()).find(|i| self.whole[*i] != wanted(*i))?;
        Some((i as i64 - self.from as i64, self.whole[i].into(), wanted(i).into()))
    }
}

pub struct Host {
    pub seed: u64,
    pub made: u64,
    pub counts: Counts,
}

impl Host {
    pub fn lend<T: Copy + PartialEq + From<u8> + Into<u64>>(&self, content: &[T]) -> Lent<T> {
        Lent::new(content, self.made)
    }

    pub fn fail(&self, call: Call, what: &str) -> ! {
        println!("FAILED: seed {}, call number {}, {}: {what}", self.seed, self.made, name(call));
        std::process::exit(1);
    }

    pub fn settle(&mut self, call: Call, got: i64, want: Answer) {
        if got != signed(want) {
            self.fail(call, &format!("the archive answers {got}, the model {}", signed(want)));
        }
        self.counts.answered(call, want);
        self.made += 1;
    }

    pub fn same<T>(&self, call: Call, buffer: &str, lent: &Lent<T>, want: &[T])
    where
        T: Copy + PartialEq + From<u8> + Into<u64>,
    {
        if let Some((place, found, wanted)) = lent.difference(want) {
            let len = want.len();
            self.fail(call, &format!("{buffer} (length {len}) differs first at {place}: {found}, and {wanted} in the model"));
        }
    }

    pub fn pack(&mut self, digits: &[u8], field: &[u8]) {
        self.convert(Call::Pack, ["digits", "field"], digits, field);
    }

    pub fn unpack(&mut self, field: &[u8], digits: &[u8]) {
        self.convert(Call::Unpack, ["field", "digits"], field, digits);
    }

    // Digits into a field or a field into digits: the first buffer is read, the second written.
    fn convert(&mut self, call: Call, [input, output]: [&str; 2], from: &[u8], to: &[u8]) {
        let (archive, model): (_, fn(&[u8], &mut [u8]) -> Answer) = match call {
            Call::Pack => (archive::plant_pack as Convert, codes::pack),
            _ => (archive::plant_unpack as Convert, codes::unpack),
        };
        let (mut lent, mut out) = (self.lend(from), self.lend(to));
        // SAFETY: each pointer is good for the length beside it, and the buffers are apart.
        let got = unsafe { archive(lent.get_mut(), from.len(), out.get_mut(), to.len()) };
        let mut after = to.to_vec();
        let want = model(from, &mut after);
        self.same(call, input, &lent, from);
        self.same(call, output, &out, &after);
        self.settle(call, got.into(), want);
    }

    // Both sides stand in one buffer, and may overlap.
    pub fn between(&mut self, sides: &[u8], left: Range<usize>, right: Range<usize>, field: &[u8]) {
        let (mut lent, mut out) = (self.lend(sides), self.lend(field));
        let (l, r) = lent.two(&left, &right);
        // SAFETY: as in convert.
        let got = unsafe { archive::plant_between(l, left.len(), r, right.len(), out.get_mut(), field.len()) };
        let mut after = field.to_vec();
        let want = codes::between_fields(&sides[left], &sides[right], &mut after);
        self.same(Call::Between, "sides", &lent, sides);
        self.same(Call::Between, "field", &out, &after);
        self.settle(Call::Between, got.into(), want);
    }

    // Both labels stand in one buffer, and may overlap.
    pub fn ask_labels(&mut self, call: Call, bytes: &[u8], u: Range<usize>, v: Range<usize>, want: Answer) {
        let mut lent = self.lend(bytes);
        let ask = match call {
            Call::Order => archive::plant_order,
            Call::Above => archive::plant_above,
            Call::Parent => archive::plant_parent,
            _ => archive::plant_sibling,
        };
        let (at_u, at_v) = lent.two(&u, &v);
        // SAFETY: as in convert.
        let got = unsafe { ask(at_u, u.len(), at_v, v.len()) };
        self.same(call, "labels", &lent, bytes);
        self.settle(call, got.into(), want);
    }

    // Only distance has a second identity.
    pub fn ask_register(&mut self, call: Call, register: &[u8], x: u32, y: u32, want: Answer) {
        let mut lent = self.lend(register);
        // SAFETY: as in convert.
        let got = unsafe {
            match call {
                Call::Place => archive::plant_place(lent.get_mut(), register.len(), x),
                Call::Depth => archive::plant_depth(lent.get_mut(), register.len(), x),
                _ => archive::plant_distance(lent.get_mut(), register.len(), x, y),
            }
        };
        self.same(call, "register", &lent, register);
        self.settle(call, got.into(), want);
    }

    // Labels a table into a copy of the buffer, and hands that back.
    pub fn label(&mut self, table: &[u32], register: &[u8], want: Answer, after: &[u8]) -> Vec<u8> {
        let (mut lent, mut out) = (self.lend(table), self.lend(register));
        // SAFETY: as in convert.
        let got = unsafe { archive::plant_label(lent.get_mut(), table.len(), out.get_mut(), register.len()) };
        self.same(Call::Label, "table", &lent, table);
        self.same(Call::Label, "register", &out, after);
        self.settle(Call::Label, got, want);
        out.content().to_vec()
    }

    // The bare call: the caller compares, and settles.
    pub fn edit(&mut self, edit: Edit, register: &mut Lent<u8>) -> i64 {
        let (at, len) = (register.get_mut(), register.len);
        let insert = match edit.call {
            Call::InsertFirst => archive::plant_insert_first,
            Call::InsertLast => archive::plant_insert_last,
            Call::InsertBefore => archive::plant_insert_before,
            Call::InsertAfter => archive::plant_insert_after,
            // SAFETY: as in convert.
            _ => return unsafe { archive::plant_delete(at, len, edit.target) }.into(),
        };
        // SAFETY: as in convert.
        unsafe { insert(at, len, edit.target, edit.identity, edit.tag) }.into()
    }
}

pub fn name(call: Call) -> &'static str {
    const NAMES: [&str; 16] = [
        "plant_pack",
        "plant_unpack",
        "plant_between",
        "plant_order",
        "plant_above",
        "plant_parent",
        "plant_sibling",
        "plant_place",
        "plant_depth",
        "plant_distance",
        "plant_label",
        "plant_insert_first",
        "plant_insert_last",
        "plant_insert_before",
        "plant_insert_after",
        "plant_delete",
    ];
    NAMES[call as usize]
}
