// Codes, fields and labels as 01 describes them, and what the calls on them answer.
use crate::calls::Call;

pub type Digits = Vec<u8>;

pub const LONGEST: usize = 127;
pub const FIELD: usize = 32;
pub const LABEL: usize = 96;

#[derive(Clone, Copy, Debug, PartialEq)]
pub struct Refusal {
    pub number: usize,
    pub row: usize,
}

pub type Answer = Result<i64, Refusal>;

pub fn refused(number: usize) -> Answer {
    Err(Refusal { number, row: 0 })
}

pub fn signed(answer: Answer) -> i64 {
    match answer {
        Ok(value) => value,
        Err(refusal) => -(100_000 + refusal.number as i64 + 1_000_000 * refusal.row as i64),
    }
}

pub fn is_code(digits: &[u8]) -> bool {
    digits.len() <= LONGEST && digits.iter().all(|digit| (1..=3).contains(digit)) && matches!(digits.last(), Some(2 | 3))
}

pub fn below(left: &[u8], right: &[u8]) -> bool {
    match left.iter().zip(right).find(|(l, r)| l != r) {
        Some((l, r)) => l < r,
        None => left.len() < right.len(),
    }
}

fn made(digits: &[u8], last: &[u8]) -> Digits {
    [&digits[..digits.len() - 1], last].concat()
}

fn followed(digits: &[u8], by: u8) -> Digits {
    [digits, &[by]].concat()
}

// The one code between, of any length; an open side has no digits.
pub fn between(left: &[u8], right: &[u8]) -> Digits {
    match (left.len().cmp(&right.len()), left.last(), right.last()) {
        (std::cmp::Ordering::Less, _, Some(2)) => made(right, &[1, 2]),
        (std::cmp::Ordering::Less, _, _) => made(right, &[2]),
        (std::cmp::Ordering::Greater, Some(2), _) => made(left, &[3]),
        _ => followed(left, 2),
    }
}

// The codes of the numbers 1 to count, at the places 1 to count; the open sides are at both ends.
pub fn first_codes(count: usize) -> Vec<Digits> {
    let mut codes = vec![Digits::new(); count + 2];
    cut(&mut codes, 0, count + 1);
    codes
}

fn cut(codes: &mut [Digits], p: usize, q: usize) {
    let d = q - p;
    if d == 2 {
        codes[p + 1] = between(&codes[p], &codes[q]);
    }
    if d < 3 {
        return;
    }
    let (one, two) = (p + (d + 1) / 3, p + (2 * d + 1) / 3);
    let shorter = codes[p].len() < codes[q].len();
    codes[one] = if shorter { made(&codes[q], &[1, 2]) } else { followed(&codes[p], 2) };
    codes[two] = if shorter { made(&codes[q], &[1, 3]) } else { followed(&codes[p], 3) };
    cut(codes, p, one);
    cut(codes, one, two);
    cut(codes, two, q);
}

// Four digits to a byte, the last byte filled up with zeros.
pub fn packed(digits: &[u8]) -> [u8; FIELD] {
    let mut field = [0; FIELD];
    for (byte, four) in field.iter_mut().zip(digits.chunks(4)) {
        *byte = (0..4).fold(0, |sum, i| 4 * sum + four.get(i).unwrap_or(&0));
    }
    field
}

#[derive(Clone, Debug, PartialEq)]
pub enum Field {
    Empty,
    Code(Digits),
    Unsound,
}

pub fn read(field: &[u8]) -> Field {
    if field.len() != FIELD {
        return Field::Unsound;
    }
    let symbols: Vec<u8> = field.iter().flat_map(|byte| [byte / 64, byte / 16 % 4, byte / 4 % 4, byte % 4]).collect();
    let separator = symbols.iter().position(|symbol| *symbol == 0).unwrap_or(symbols.len());
    let (digits, rest) = symbols.split_at(separator);
    match (rest.iter().all(|symbol| *symbol == 0), digits.is_empty()) {
        (true, true) => Field::Empty,
        (true, false) if is_code(digits) => Field::Code(digits.to_vec()),
        _ => Field::Unsound,
    }
}

pub struct Label {
    pub start: Digits,
    pub end: Digits,
    pub parent: Digits,
}

// The label's codes, no digits for an empty parent start; nothing for an unsound label.
pub fn read_label(bytes: &[u8]) -> Option<Label> {
    if bytes.len() != LABEL {
        return None;
    }
    let (Field::Code(start), Field::Code(end)) = (read(&bytes[..32]), read(&bytes[32..64])) else {
        return None;
    };
    let parent = match read(&bytes[64..]) {
        Field::Empty => Digits::new(),
        Field::Code(parent) if below(&parent, &start) => parent,
        _ => return None,
    };
    below(&start, &end).then_some(Label { start, end, parent })
}

// The four questions by their definitions, on any two labels.
pub fn relation(call: Call, u: &[u8], v: &[u8]) -> Answer {
    let (Some(u), Some(v)) = (read_label(u), read_label(v)) else {
        return refused(11);
    };
    let yes = match call {
        Call::Order => return Ok(i64::from(below(&v.start, &u.start)) - i64::from(below(&u.start, &v.start))),
        Call::Above => below(&u.start, &v.start) && below(&v.end, &u.end),
        Call::Parent => !v.parent.is_empty() && v.parent == u.start,
        _ => !u.parent.is_empty() && u.parent == v.parent && u.start != v.start,
    };
    Ok(i64::from(yes))
}

pub fn pack(digits: &[u8], field: &mut [u8]) -> Answer {
    if !is_code(digits) {
        return refused(12);
    }
    if field.len() < FIELD {
        return refused(4);
    }
    field[..FIELD].copy_from_slice(&packed(digits));
    Ok(digits.len() as i64)
}

pub fn unpack(field: &[u8], digits: &mut [u8]) -> Answer {
    let Field::Code(code) = read(field) else {
        return refused(12);
    };
    if digits.len() < code.len() {
        return refused(4);
    }
    digits[..code.len()].copy_from_slice(&code);
    Ok(code.len() as i64)
}

fn side(field: &[u8]) -> Option<Digits> {
    match read(field) {
        Field::Empty => Some(Digits::new()),
        Field::Code(code) => Some(code),
        Field::Unsound => None,
    }
}

pub fn between_fields(left: &[u8], right: &[u8], field: &mut [u8]) -> Answer {
    let (Some(left), Some(right)) = (side(left), side(right)) else {
        return refused(12);
    };
    if !left.is_empty() && !right.is_empty() && !below(&left, &right) {
        return refused(13);
    }
    if field.len() < FIELD {
        return refused(4);
    }
    let code = between(&left, &right);
    if code.len() > LONGEST {
        return refused(8);
    }
    pack(&code, field)
}
