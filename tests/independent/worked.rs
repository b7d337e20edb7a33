// What 01 and 001 reckon by hand, asked of the model before anything else: a model in error would hide the same error.
use crate::calls::{Call, Edit};
use crate::codes::{below, between, first_codes, packed, Digits};
use crate::model::Tree;

fn digits(text: &str) -> Digits {
    text.bytes().filter(|byte| *byte != b'-').map(|byte| byte - b'0').collect()
}

fn text(digits: &[u8]) -> String {
    digits.iter().map(|digit| char::from(b'0' + digit)).collect()
}

fn expect(what: &str, got: &str, want: &str) {
    if got != want {
        println!("FAILED: the model's {what} is {got}, the paper's {want}");
        std::process::exit(1);
    }
}

const TABLE_3: &str = "112 12 122 13 132 2 212 22 222 223 23 232 3 312 32 322 33 332";
const ROWS: [u32; 12] = [10, 1, 0, 11, 2, 1, 12, 2, 1, 13, 3, 2];
const LINES: [&str; 4] = ["12 33", "13 2", "22 32", "23 3"];
const BETWEEN: [[&str; 3]; 6] =
    [["2", "3", "22"], ["-", "-", "2"], ["-", "2", "12"], ["2", "23", "22"], ["22", "3", "23"], ["23", "3", "232"]];
const PUT_IN: [(Call, u32, &str); 3] =
    [(Call::InsertFirst, 12, "222 223"), (Call::InsertAfter, 11, "212 213"), (Call::InsertLast, 11, "132 133")];

fn codes_of(tree: &Tree, identity: u32) -> String {
    let entry = tree.entry(tree.find(identity).unwrap());
    format!("{} {}", text(&entry.start), text(&entry.end))
}

pub fn check() {
    let first: Vec<String> = first_codes(18)[1..19].iter().map(|code| text(code)).collect();
    expect("table 3", &first.join(" "), TABLE_3);
    expect("P1", &codes_of(&Tree::labelled(&[1, 0, 0]), 1), "2 3");
    for [left, right, code] in BETWEEN {
        expect("P2 to P7", &text(&between(&digits(left), &digits(right))), code);
    }
    for (identity, line) in (10..).zip(LINES) {
        expect("first labelling", &codes_of(&Tree::labelled(&ROWS), identity), line);
    }
    for (call, target, codes) in PUT_IN {
        let mut tree = Tree::labelled(&ROWS);
        tree.edit(Edit { call, target, identity: 14, tag: 0 }, 1000).ok();
        expect("P8 to P10", &codes_of(&tree, 14), codes);
    }
    for (code, hex) in [("12", "60 00"), ("223", "ac 00"), ("2222", "aa 00")] {
        let field = packed(&digits(code));
        expect("P11 to P13", &format!("{:02x} {:02x}", field[0], field[1..].iter().max().unwrap()), hex);
    }
    expect("P14", &below(&[1, 2], &[1, 2, 2]).to_string(), "true");
}
