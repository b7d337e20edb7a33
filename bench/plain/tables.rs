// The labelling of a table. First codes have at most 9 digits, so a code is one number of 32 bits, the first digit highest, as
// it stands in the first four bytes of a field.
use crate::plant::{DEEPEST, END, ENTRY, FIELD, HEADER, MOST, PARENT, ROW, START};
use std::collections::HashSet;

#[inline(always)]
pub fn write_number(bytes: &mut [u8], at: usize, number: u32) {
    bytes[at..at + 4].copy_from_slice(&number.to_le_bytes());
}

// The identities seen so far.
pub trait Seen {
    fn new(rows: usize) -> Self;

    // Enters an identity that is not 0; whether it is new.
    fn enter(&mut self, identity: u32) -> bool;
}

impl Seen for HashSet<u32> {
    fn new(rows: usize) -> Self {
        HashSet::with_capacity(rows)
    }

    #[inline(always)]
    fn enter(&mut self, identity: u32) -> bool {
        self.insert(identity)
    }
}

// The identities seen so far: twice as many places as there are or more, a power of two; a free one holds 0.
pub struct Places {
    places: Vec<u32>,
    shift: u32,
}

impl Seen for Places {
    fn new(most: usize) -> Self {
        let size = (2 * most).next_power_of_two();
        Places { places: vec![0; size], shift: 32 - size.trailing_zeros() }
    }

    #[inline(always)]
    fn enter(&mut self, identity: u32) -> bool {
        let mask = self.places.len() - 1;
        let mut at = (identity.wrapping_mul(2_654_435_761) >> self.shift) as usize & mask;
        while self.places[at] != 0 {
            if self.places[at] == identity {
                return false;
            }
            at = at + 1 & mask;
        }
        self.places[at] = identity;
        true
    }
}

fn refused(number: i64, row: usize) -> i64 {
    -(100_000 + number + 1_000_000 * row as i64)
}

// The rows of a table that keeps the rules.
#[inline(always)]
fn checked<S: Seen>(table: &[u32]) -> Result<&[[u32; ROW]], i64> {
    let (rows, []) = table.as_chunks::<ROW>() else {
        return Err(refused(1, 0));
    };
    if rows.is_empty() || rows.len() > MOST {
        return Err(refused(1, 0));
    }
    let mut seen = S::new(rows.len());
    let mut most = 0;
    for (i, &[identity, _, depth]) in rows.iter().enumerate() {
        if depth > most || (depth == 0) != (i == 0) {
            return Err(refused(2, i));
        }
        if identity == 0 || !seen.enter(identity) {
            return Err(refused(3, i));
        }
        most = DEEPEST.min(depth + 1);
    }
    Ok(rows)
}

// The bits behind a code's last digit; 32 for an open side, which is 0.
#[inline(always)]
fn behind(code: u32) -> u32 {
    code.trailing_zeros() & !1
}

// The one code between two sides.
#[inline(always)]
fn between(left: u32, right: u32) -> u32 {
    let (l, r) = (behind(left), behind(right));
    if l > r {
        let lowered = right - (1 << r);
        if right >> r & 1 == 0 {
            lowered | 2 << (r - 2)
        } else {
            lowered
        }
    } else if l < r && left >> l & 1 == 0 {
        left + (1 << l)
    } else {
        left | 2 << (l - 2)
    }
}

// The two codes that cut a gap in three.
#[inline(always)]
fn cuts(left: u32, right: u32) -> (u32, u32) {
    let (l, r) = (behind(left), behind(right));
    let (stem, at) = if l > r { (right - (1 << r), r - 2) } else { (left, l - 2) };
    (stem | 2 << at, stem | 3 << at)
}

#[inline(always)]
fn write_field(entry: &mut [u8], at: usize, code: u32) {
    let field: &mut [u8; FIELD] = entry[at..].first_chunk_mut().unwrap();
    *field = [0; FIELD];
    field[..4].copy_from_slice(&code.to_be_bytes());
}

// The register's header written, and its entries.
#[inline(always)]
fn begun(register: &mut [u8], rows: usize) -> Result<&mut [[u8; ENTRY]], i64> {
    let register = register.get_mut(..HEADER + ENTRY * rows).ok_or(refused(4, 0))?;
    write_number(register, 0, rows as u32);
    write_number(register, 4, 0);
    Ok(register[HEADER..].as_chunks_mut().0)
}

// The first codes of a gap, one for each number in it.
fn fill(codes: &mut [u32], left: u32, right: u32) {
    match codes {
        [] => {}
        [one] => *one = between(left, right),
        _ => {
            let d = codes.len() + 1;
            let (i, j) = ((d + 1) / 3, (2 * d + 1) / 3);
            let (low, high) = cuts(left, right);
            codes[i - 1] = low;
            codes[j - 1] = high;
            fill(&mut codes[..i - 1], left, low);
            fill(&mut codes[i..j - 1], low, high);
            fill(&mut codes[j..], high, right);
        }
    }
}

// All codes first, then entry by entry. The number of a start or an end follows from row and depth.
fn label_listed<S: Seen>(table: &[u32], register: &mut [u8]) -> Result<i64, i64> {
    let rows = checked::<S>(table)?;
    let entries = begun(register, rows.len())?;
    let mut codes = vec![0; 2 * rows.len()];
    fill(&mut codes, 0, 0);
    let mut starts = [0; DEEPEST as usize + 2];
    let mut open = [0; DEEPEST as usize + 1];
    let mut level = 0;
    for (i, &[identity, tag, depth]) in rows.iter().enumerate() {
        let depth = depth as usize;
        for up in (depth..level).rev() {
            write_field(&mut entries[open[up]], END, codes[2 * i - up - 1]);
        }
        let start = codes[2 * i - depth];
        open[depth] = i;
        starts[depth + 1] = start;
        level = depth + 1;
        let entry = &mut entries[i];
        write_number(entry, 0, identity);
        write_number(entry, 4, tag);
        write_field(entry, START, start);
        write_field(entry, PARENT, starts[depth]);
    }
    for up in (0..level).rev() {
        write_field(&mut entries[open[up]], END, codes[2 * rows.len() - up - 1]);
    }
    Ok((HEADER + ENTRY * rows.len()) as i64)
}

// A walk along the tour.
struct Walk<'a> {
    rows: &'a [[u32; ROW]],
    entries: &'a mut [[u8; ENTRY]],
    row: usize,
    level: usize,
    open: [usize; DEEPEST as usize + 1],
    starts: [u32; DEEPEST as usize + 2],
}

impl Walk<'_> {
    // The next start or end of the tour has this code.
    #[inline(always)]
    fn place(&mut self, code: u32) {
        match self.rows.get(self.row) {
            Some(&[identity, tag, depth]) if depth as usize == self.level => {
                let entry = &mut self.entries[self.row];
                write_number(entry, 0, identity);
                write_number(entry, 4, tag);
                write_field(entry, START, code);
                write_field(entry, PARENT, self.starts[self.level]);
                self.open[self.level] = self.row;
                self.row += 1;
                self.level += 1;
                self.starts[self.level] = code;
            }
            _ => {
                self.level -= 1;
                write_field(&mut self.entries[self.open[self.level]], END, code);
            }
        }
    }

    // The codes of a gap, each written as it is made.
    fn gap(&mut self, left: u32, right: u32, width: usize) {
        match width {
            1 => {}
            2 => self.place(between(left, right)),
            _ => {
                let (i, j) = ((width + 1) / 3, (2 * width + 1) / 3);
                let (low, high) = cuts(left, right);
                self.gap(left, low, i);
                self.place(low);
                self.gap(low, high, j - i);
                self.place(high);
                self.gap(high, right, width - j);
            }
        }
    }
}

fn label_walked<S: Seen>(table: &[u32], register: &mut [u8]) -> Result<i64, i64> {
    let rows = checked::<S>(table)?;
    let entries = begun(register, rows.len())?;
    let (open, starts) = ([0; DEEPEST as usize + 1], [0; DEEPEST as usize + 2]);
    let mut walk = Walk { rows, entries, row: 0, level: 0, open, starts };
    walk.gap(0, 0, 2 * rows.len() + 1);
    Ok((HEADER + ENTRY * rows.len()) as i64)
}

#[inline(never)]
pub fn listed<S: Seen>(table: &[u32], register: &mut [u8]) -> i64 {
    label_listed::<S>(table, register).unwrap_or_else(|refusal| refusal)
}

#[inline(never)]
pub fn walked<S: Seen>(table: &[u32], register: &mut [u8]) -> i64 {
    label_walked::<S>(table, register).unwrap_or_else(|refusal| refusal)
}
