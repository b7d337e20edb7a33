// The check of a whole register, and the questions on one.
use super::fields::{below, is_code, words, Code};
use super::tables::{Places, Seen};
use crate::plant::{DEEPEST, END, ENTRY, HEADER, MOST, NO_REGISTER, NO_TARGET, PARENT, START};

pub type Entry = [u8; ENTRY];

#[inline(always)]
pub fn number(bytes: &[u8], at: usize) -> u32 {
    u32::from_le_bytes(*bytes[at..].first_chunk().unwrap())
}

#[inline(always)]
pub fn field(entry: &Entry, at: usize) -> Code {
    words(entry[at..].first_chunk().unwrap())
}

// The counted entries, when they stand in the buffer.
#[inline(always)]
pub fn entries(register: &[u8]) -> Option<&[Entry]> {
    if register.len() < HEADER || number(register, 4) != 0 {
        return None;
    }
    let (all, _) = register[HEADER..].as_chunks::<ENTRY>();
    let count = number(register, 0) as usize;
    if count == 0 || count > MOST {
        return None;
    }
    all.get(..count)
}

// The entries that are open, and the last code of the tour so far.
struct Walk {
    open: [(Code, Code); DEEPEST as usize + 1],
    level: usize,
    low: Code,
}

impl Walk {
    // Opens the root.
    #[inline(always)]
    fn new(root: &Entry) -> Option<Walk> {
        let (start, end) = (field(root, START), field(root, END));
        if !is_code(&start) || !is_code(&end) || !below(&start, &end) || field(root, PARENT) != [0; 4] {
            return None;
        }
        let mut open = [([0; 4], [0; 4]); DEEPEST as usize + 1];
        open[0] = (start, end);
        Some(Walk { open, level: 0, low: start })
    }

    // Closes what ends below the entry's start and opens the entry; whether it is sound.
    #[inline(always)]
    fn enter(&mut self, entry: &Entry) -> bool {
        let (start, end) = (field(entry, START), field(entry, END));
        if !is_code(&start) || !is_code(&end) {
            return false;
        }
        while !below(&start, &self.open[self.level].1) {
            if self.level == 0 {
                return false;
            }
            self.low = self.open[self.level].1;
            self.level -= 1;
        }
        let (parent, last) = &self.open[self.level];
        let sound =
            below(&self.low, &start) && below(&start, &end) && below(&end, last) && field(entry, PARENT) == *parent;
        if !sound || self.level == DEEPEST as usize {
            return false;
        }
        self.level += 1;
        self.open[self.level] = (start, end);
        self.low = start;
        true
    }
}

// Places and depths of identities; all checks and the search in one pass.
#[inline(always)]
pub fn at_once<const N: usize>(register: &[u8], identities: [u32; N]) -> Result<[(usize, usize); N], i32> {
    let entries = entries(register).ok_or(NO_REGISTER)?;
    let mut places = Places::new(entries.len());
    let mut walk = Walk::new(&entries[0]).ok_or(NO_REGISTER)?;
    let mut found = [None; N];
    for (i, entry) in entries.iter().enumerate() {
        let own = number(entry, 0);
        if own == 0 || !places.enter(own) || i > 0 && !walk.enter(entry) {
            return Err(NO_REGISTER);
        }
        for (found, identity) in found.iter_mut().zip(identities) {
            if own == identity {
                *found = Some((i, walk.level));
            }
        }
    }
    if found.contains(&None) {
        return Err(NO_TARGET);
    }
    Ok(found.map(Option::unwrap))
}

// The checked entries: identities in one pass, the tree in another.
#[inline(always)]
pub fn checked(register: &[u8]) -> Option<&[Entry]> {
    let entries = entries(register)?;
    let mut places = Places::new(entries.len());
    if !entries.iter().map(|entry| number(entry, 0)).all(|own| own != 0 && places.enter(own)) {
        return None;
    }
    let mut walk = Walk::new(&entries[0])?;
    entries[1..].iter().all(|entry| walk.enter(entry)).then_some(entries)
}

#[inline(always)]
pub fn find(entries: &[Entry], identity: u32) -> Result<usize, i32> {
    entries.iter().position(|entry| number(entry, 0) == identity).ok_or(NO_TARGET)
}

// The first entry whose start is not below a code.
#[inline(always)]
pub fn not_below(entries: &[Entry], code: &Code) -> usize {
    entries.partition_point(|entry| below(&field(entry, START), code))
}

// The depth of an entry: upwards from parent start to parent.
#[inline(always)]
pub fn depth_up(entries: &[Entry], mut at: usize) -> usize {
    let mut depth = 0;
    while at > 0 {
        at = not_below(&entries[..at], &field(&entries[at], PARENT));
        depth += 1;
    }
    depth
}

// Place and depth of an identity, pass after pass.
#[inline(always)]
pub fn in_passes(register: &[u8], identity: u32) -> Result<(usize, usize), i32> {
    let entries = checked(register).ok_or(NO_REGISTER)?;
    let at = find(entries, identity)?;
    Ok((at, depth_up(entries, at)))
}

fn place_in_passes(register: &[u8], identity: u32) -> Result<usize, i32> {
    find(checked(register).ok_or(NO_REGISTER)?, identity)
}

fn distance_in_passes(register: &[u8], x: u32, y: u32) -> Result<i32, i32> {
    let entries = checked(register).ok_or(NO_REGISTER)?;
    Ok(apart(find(entries, x)?, find(entries, y)?))
}

fn apart(x: usize, y: usize) -> i32 {
    y as i32 - x as i32
}

pub fn answer(result: Result<usize, i32>) -> i32 {
    result.map_or_else(|refusal| refusal, |number| number as i32)
}

#[inline(never)]
pub fn place_at_once(register: &[u8], identity: u32) -> i32 {
    answer(at_once(register, [identity]).map(|[(place, _)]| place))
}

#[inline(never)]
pub fn place(register: &[u8], identity: u32) -> i32 {
    answer(place_in_passes(register, identity))
}

#[inline(never)]
pub fn depth_at_once(register: &[u8], identity: u32) -> i32 {
    answer(at_once(register, [identity]).map(|[(_, depth)]| depth))
}

#[inline(never)]
pub fn depth(register: &[u8], identity: u32) -> i32 {
    answer(in_passes(register, identity).map(|(_, depth)| depth))
}

#[inline(never)]
pub fn distance_at_once(register: &[u8], x: u32, y: u32) -> i32 {
    at_once(register, [x, y]).map_or_else(|refusal| refusal, |[(x, _), (y, _)]| apart(x, y))
}

#[inline(never)]
pub fn distance(register: &[u8], x: u32, y: u32) -> i32 {
    distance_in_passes(register, x, y).unwrap_or_else(|refusal| refusal)
}
