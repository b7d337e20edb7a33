// Packed fields: 32 bytes, or a code of four numbers of 64 bits, the first digit highest.
use crate::plant::{FIELD, LONGEST};

pub type Field = [u8; FIELD];
pub type Code = [u64; 4];

// The lower bit of each of a word's 32 digits.
const LOW: u64 = 0x5555_5555_5555_5555;

#[inline(always)]
pub fn words(field: &Field) -> Code {
    let (words, _) = field.as_chunks::<8>();
    std::array::from_fn(|k| u64::from_be_bytes(words[k]))
}

pub fn bytes(code: &Code) -> Field {
    let mut field = [0; FIELD];
    for (word, eight) in code.iter().zip(field.as_chunks_mut::<8>().0) {
        *eight = word.to_be_bytes();
    }
    field
}

// None of a word's digits is zero.
#[inline(always)]
fn full(word: u64) -> bool {
    (word | word >> 1) & LOW == LOW
}

// A code ends in this word: its zero digits are the lowest, and the digit above them is 2 or 3.
#[inline(always)]
fn ends(word: u64) -> bool {
    let zeros = (!(word | word >> 1) & LOW) * 3;
    let last = zeros.wrapping_add(1);
    zeros & last == 0 && word & last << 1 != 0
}

#[inline(always)]
pub fn is_code(code: &Code) -> bool {
    match *code {
        [a, 0, 0, 0] => ends(a),
        [a, b, 0, 0] => full(a) && ends(b),
        [a, b, c, 0] => full(a) && full(b) && ends(c),
        [a, b, c, d] => full(a) && full(b) && full(c) && ends(d) && d & 3 == 0,
    }
}

// The number of digits of a code, 0 for the empty field.
#[inline(always)]
pub fn length(code: &Code) -> usize {
    let (before, last) = match *code {
        [a, 0, 0, 0] => (0, a),
        [_, b, 0, 0] => (32, b),
        [_, _, c, 0] => (64, c),
        [_, _, _, d] => (96, d),
    };
    before + 32 - last.trailing_zeros() as usize / 2
}

#[inline(always)]
pub fn below(x: &Code, y: &Code) -> bool {
    for k in 0..4 {
        if x[k] != y[k] {
            return x[k] < y[k];
        }
    }
    false
}

#[inline(always)]
pub fn digit(field: &[u8], i: usize) -> u8 {
    field[i / 4] >> (6 - i % 4 * 2) & 3
}

// Changes bits of a digit.
#[inline(always)]
fn flip(field: &mut Field, i: usize, bits: u8) {
    field[i / 4] ^= bits << (6 - i % 4 * 2);
}

// The code between two sides of l and r digits, 0 for an open one, and its number of digits, if it fits.
#[inline(always)]
pub fn between(left: &Field, l: usize, right: &Field, r: usize) -> Option<(Field, usize)> {
    let mut made = if l < r { *right } else { *left };
    let n = if l < r {
        if digit(right, r - 1) == 2 {
            flip(&mut made, r - 1, 2 ^ 1);
            flip(&mut made, r, 2);
            r + 1
        } else {
            flip(&mut made, r - 1, 3 ^ 2);
            r
        }
    } else if l > r && digit(left, l - 1) == 2 {
        flip(&mut made, l - 1, 2 ^ 3);
        l
    } else {
        flip(&mut made, l, 2);
        l + 1
    };
    (n <= LONGEST).then_some((made, n))
}

// The field of some digits, four to a byte; they need not be sound.
#[inline(always)]
pub fn packed(digits: &[u8]) -> Field {
    let mut field = [0; FIELD];
    for (byte, four) in field.iter_mut().zip(digits.chunks(4)) {
        for (i, digit) in four.iter().enumerate() {
            *byte |= digit << (6 - 2 * i);
        }
    }
    field
}
