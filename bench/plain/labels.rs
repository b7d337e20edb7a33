// The calls on codes and labels.
use super::fields::{self, digit, is_code, length, packed, words, Code, Field};
use crate::plant::{CODE_LENGTH, FIELD, LONGEST, NOT_BELOW, NO_CODE, NO_LABEL, ROOM};
use std::cmp::Ordering;

// A way to compare two fields: by what they are read as.
pub trait Compare {
    type Key<'a>: Ord;

    fn key(field: &Field) -> Self::Key<'_>;

    #[inline(always)]
    fn order(x: &Field, y: &Field) -> Ordering {
        Self::key(x).cmp(&Self::key(y))
    }

    #[inline(always)]
    fn below(x: &Field, y: &Field) -> bool {
        Self::key(x) < Self::key(y)
    }
}

// As byte arrays.
pub struct Bytes;

impl Compare for Bytes {
    type Key<'a> = &'a Field;

    #[inline(always)]
    fn key(field: &Field) -> &Field {
        field
    }
}

// As arrays of four words.
pub struct Words;

impl Compare for Words {
    type Key<'a> = Code;

    #[inline(always)]
    fn key(field: &Field) -> Code {
        words(field)
    }
}

// As pairs of numbers of 128 bits.
pub struct Wide;

impl Compare for Wide {
    type Key<'a> = (u128, u128);

    #[inline(always)]
    fn key(field: &Field) -> (u128, u128) {
        let [a, b, c, d] = words(field).map(u128::from);
        (a << 64 | b, c << 64 | d)
    }
}

struct Parts<'a> {
    start: &'a Field,
    end: &'a Field,
    parent: &'a Field,
}

// The fields of a sound label.
#[inline(always)]
fn sound<C: Compare>(label: &[u8]) -> Option<Parts<'_>> {
    let ([start, end, parent], []) = label.as_chunks::<FIELD>() else {
        return None;
    };
    let rooted = || *parent == [0; FIELD] || is_code(&words(parent)) && C::below(parent, start);
    let sound = is_code(&words(start)) && is_code(&words(end)) && C::below(start, end) && rooted();
    sound.then_some(Parts { start, end, parent })
}

#[inline(always)]
fn ask<C: Compare>(u: &[u8], v: &[u8], question: impl Fn(Parts, Parts) -> i32) -> i32 {
    match (sound::<C>(u), sound::<C>(v)) {
        (Some(u), Some(v)) => question(u, v),
        _ => NO_LABEL,
    }
}

#[inline(never)]
pub fn order<C: Compare>(u: &[u8], v: &[u8]) -> i32 {
    ask::<C>(u, v, |u, v| C::order(u.start, v.start) as i32)
}

#[inline(never)]
pub fn above<C: Compare>(u: &[u8], v: &[u8]) -> i32 {
    ask::<C>(u, v, |u, v| i32::from(C::below(u.start, v.start) && C::below(v.end, u.end)))
}

#[inline(never)]
pub fn parent<C: Compare>(u: &[u8], v: &[u8]) -> i32 {
    ask::<C>(u, v, |u, v| i32::from(v.parent == u.start))
}

#[inline(never)]
pub fn sibling<C: Compare>(u: &[u8], v: &[u8]) -> i32 {
    ask::<C>(u, v, |u, v| i32::from(u.parent[0] != 0 && u.parent == v.parent && u.start != v.start))
}

// The number of digits, 0 for the empty field; nothing for an unsound one.
#[inline(always)]
fn count(field: &Field) -> Option<usize> {
    let code = words(field);
    (code == [0; 4] || is_code(&code)).then(|| length(&code))
}

// The two sides of a gap as fields, with their numbers of digits.
#[inline(always)]
fn sides<'a>(left: &'a [u8], right: &'a [u8]) -> Result<(&'a Field, usize, &'a Field, usize), i32> {
    let left: &Field = left.try_into().map_err(|_| NO_CODE)?;
    let right: &Field = right.try_into().map_err(|_| NO_CODE)?;
    let (l, r) = (count(left).ok_or(NO_CODE)?, count(right).ok_or(NO_CODE)?);
    if l > 0 && r > 0 && !Bytes::below(left, right) {
        return Err(NOT_BELOW);
    }
    Ok((left, l, right, r))
}

// The code between, made in one of two ways, which write it and answer its number of digits, if it fits.
#[inline(always)]
fn between(
    left: &[u8],
    right: &[u8],
    field: &mut [u8],
    way: impl Fn(&Field, usize, &Field, usize, &mut Field) -> Option<usize>,
) -> i32 {
    let (left, l, right, r) = match sides(left, right) {
        Ok(sides) => sides,
        Err(refusal) => return refusal,
    };
    let Some(field) = field.first_chunk_mut() else {
        return ROOM;
    };
    way(left, l, right, r, field).map_or(CODE_LENGTH, |n| n as i32)
}

// In the packed field.
#[inline(never)]
pub fn between_packed(left: &[u8], right: &[u8], field: &mut [u8]) -> i32 {
    between(left, right, field, |left, l, right, r, field| {
        let (made, n) = fields::between(left, l, right, r)?;
        *field = made;
        Some(n)
    })
}

// What the last of some digits becomes, and whether a 2 follows; for an open side the place before the first is left alone.
#[inline(always)]
fn ending(l: usize, r: usize, last: u8) -> (u8, bool) {
    match (l.cmp(&r), last) {
        (Ordering::Less, 2) => (1, true),
        (Ordering::Less, _) => (2, false),
        (Ordering::Greater, 2) => (3, false),
        (_, last) => (last, true),
    }
}

// As digits, packed again.
#[inline(never)]
pub fn between_digits(left: &[u8], right: &[u8], field: &mut [u8]) -> i32 {
    between(left, right, field, |left, l, right, r, field| {
        let (from, count) = if l < r { (right, r) } else { (left, l) };
        let mut digits = [0; LONGEST + 2]; // one in front, which stands for the last of none
        for (i, place) in digits[1..=count].iter_mut().enumerate() {
            *place = digit(from, i);
        }
        let (last, longer) = ending(l, r, digits[count]);
        digits[count] = last;
        digits[count + 1] = 2;
        let n = count + usize::from(longer);
        if n > LONGEST {
            return None;
        }
        *field = packed(&digits[1..=n]);
        Some(n)
    })
}

#[inline(never)]
pub fn pack(digits: &[u8], field: &mut [u8]) -> i32 {
    let Some((last, before)) = digits.split_last() else {
        return NO_CODE;
    };
    let sound = (2..=3).contains(last) && before.iter().all(|digit| (1..=3).contains(digit));
    if digits.len() > LONGEST || !sound {
        return NO_CODE;
    }
    let Some(field) = field.first_chunk_mut() else {
        return ROOM;
    };
    *field = packed(digits);
    digits.len() as i32
}

#[inline(never)]
pub fn unpack(field: &[u8], digits: &mut [u8]) -> i32 {
    let Ok(field) = field.try_into() else {
        return NO_CODE;
    };
    let n = match count(field) {
        None | Some(0) => return NO_CODE,
        Some(n) => n,
    };
    let Some(digits) = digits.get_mut(..n) else {
        return ROOM;
    };
    for (four, byte) in digits.chunks_mut(4).zip(field) {
        for (i, digit) in four.iter_mut().enumerate() {
            *digit = byte >> (6 - 2 * i) & 3;
        }
    }
    n as i32
}
