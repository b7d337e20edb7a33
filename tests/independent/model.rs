// A register as a tree of entries, each with its parent and the list of its children: tables, edits, questions, soundness.
use crate::calls::{Call, Edit};
use crate::codes::{below, between, first_codes, packed, read, refused, Answer, Digits, Field, Refusal, LONGEST};
use std::collections::HashSet;

pub const MOST: usize = 4096;
pub const DEEPEST: usize = 63;
pub const HEADER: usize = 8;
pub const ENTRY: usize = 104;

#[derive(Clone)]
pub struct Entry {
    pub identity: u32,
    pub tag: u32,
    pub start: Digits,
    pub end: Digits,
    parent: Option<usize>,
    children: Vec<usize>,
}

// Entries that were taken out keep their slot, but no list of children leads to it. The root is at slot 0.
#[derive(Clone)]
pub struct Tree {
    entries: Vec<Entry>,
}

pub fn size(count: usize) -> usize {
    HEADER + ENTRY * count
}

pub fn number_at(bytes: &[u8], at: usize) -> u32 {
    u32::from_le_bytes(bytes[at..at + 4].try_into().unwrap())
}

// What labelling answers, by the table's numbers and the bytes lent for the register.
pub fn label(table: &[u32], room: usize) -> Answer {
    let count = table.len() / 3;
    if table.len() % 3 != 0 || count == 0 || count > MOST {
        return refused(1);
    }
    let mut used = HashSet::from([0]);
    for (row, numbers) in table.chunks(3).enumerate() {
        let deepest = if row == 0 { 0 } else { DEEPEST.min(table[3 * row - 1] as usize + 1) };
        if !(row.min(1)..=deepest).contains(&(numbers[2] as usize)) {
            return Err(Refusal { number: 2, row });
        }
        if !used.insert(numbers[0]) {
            return Err(Refusal { number: 3, row });
        }
    }
    if room < size(count) {
        return refused(4);
    }
    Ok(size(count) as i64)
}

impl Tree {
    // The tree of rows that label accepts, with no codes yet. Depth 64 and more is taken too.
    fn of_rows(table: &[u32]) -> Tree {
        let mut tree = Tree { entries: Vec::new() };
        let mut path: Vec<usize> = Vec::new();
        for row in table.chunks(3) {
            path.truncate(row[2] as usize);
            let slot = tree.add(path.last().copied(), row[0], row[1]);
            path.push(slot);
        }
        tree
    }

    fn add(&mut self, parent: Option<usize>, identity: u32, tag: u32) -> usize {
        let slot = self.entries.len();
        self.entries.push(Entry { identity, tag, start: vec![], end: vec![], parent, children: vec![] });
        if let Some(parent) = parent {
            self.entries[parent].children.push(slot);
        }
        slot
    }

    pub fn labelled(table: &[u32]) -> Tree {
        let codes = first_codes(2 * (table.len() / 3));
        Tree::with_codes(table, &codes[1..])
    }

    // The codes rise; they are given out along the tour.
    pub fn with_codes(table: &[u32], codes: &[Digits]) -> Tree {
        let mut tree = Tree::of_rows(table);
        let mut met = Vec::new();
        tree.visit(0, &mut met);
        for ((slot, is_end), code) in met.into_iter().zip(codes) {
            let entry = &mut tree.entries[slot];
            let place = if is_end { &mut entry.end } else { &mut entry.start };
            place.clone_from(code);
        }
        tree
    }

    // Each entry's start, then its children, then its end.
    fn visit(&self, slot: usize, met: &mut Vec<(usize, bool)>) {
        met.push((slot, false));
        for child in &self.entries[slot].children {
            self.visit(*child, met);
        }
        met.push((slot, true));
    }

    // The slots in document order.
    pub fn in_order(&self) -> Vec<usize> {
        let mut met = Vec::new();
        self.visit(0, &mut met);
        met.into_iter().filter(|(_, is_end)| !is_end).map(|(slot, _)| slot).collect()
    }

    fn rises(&self) -> bool {
        let mut met = Vec::new();
        self.visit(0, &mut met);
        let code = |(slot, is_end): (usize, bool)| if is_end { &self.entries[slot].end } else { &self.entries[slot].start };
        met.windows(2).all(|two| below(code(two[0]), code(two[1])))
    }

    pub fn entry(&self, slot: usize) -> &Entry {
        &self.entries[slot]
    }

    pub fn find(&self, identity: u32) -> Option<usize> {
        self.in_order().into_iter().find(|slot| self.entries[*slot].identity == identity)
    }

    pub fn depth(&self, slot: usize) -> usize {
        std::iter::successors(self.entries[slot].parent, |up| self.entries[*up].parent).count()
    }

    pub fn above(&self, upper: usize, lower: usize) -> bool {
        std::iter::successors(self.entries[lower].parent, |up| self.entries[*up].parent).any(|up| up == upper)
    }

    pub fn parent(&self, upper: usize, lower: usize) -> bool {
        self.entries[lower].parent == Some(upper)
    }

    pub fn sibling(&self, one: usize, other: usize) -> bool {
        one != other && self.entries[one].parent.is_some_and(|parent| self.entries[parent].children.contains(&other))
    }

    pub fn is_leaf(&self, slot: usize) -> bool {
        self.entries[slot].children.is_empty()
    }

    // What the register's first bytes become.
    pub fn bytes(&self) -> Vec<u8> {
        let order = self.in_order();
        let mut bytes = [(order.len() as u32).to_le_bytes(), [0; 4]].concat();
        for entry in order.into_iter().map(|slot| &self.entries[slot]) {
            bytes.extend(entry.identity.to_le_bytes());
            bytes.extend(entry.tag.to_le_bytes());
            bytes.extend(packed(&entry.start));
            bytes.extend(packed(&entry.end));
            bytes.extend(entry.parent.map_or([0; 32], |up| packed(&self.entries[up].start)));
        }
        bytes
    }
}

impl Tree {
    // The tree that the bytes hold, if they are a sound register.
    pub fn read(bytes: &[u8]) -> Option<Tree> {
        if bytes.len() < HEADER || number_at(bytes, 4) != 0 {
            return None;
        }
        let count = number_at(bytes, 0) as usize;
        if count == 0 || count > MOST || bytes.len() < size(count) {
            return None;
        }
        let mut tree = Tree { entries: Vec::new() };
        let mut path = Vec::new();
        for entry in bytes[HEADER..size(count)].chunks(ENTRY) {
            tree.read_entry(entry, &mut path)?;
        }
        let mut used = HashSet::from([0]);
        let distinct = tree.entries.iter().all(|entry| used.insert(entry.identity));
        (distinct && tree.rises()).then_some(tree)
    }

    // The parent is the entry on the path down to the last one whose start the parent start is.
    fn read_entry(&mut self, bytes: &[u8], path: &mut Vec<usize>) -> Option<()> {
        let (Field::Code(start), Field::Code(end)) = (read(&bytes[8..40]), read(&bytes[40..72])) else {
            return None;
        };
        let parent = match read(&bytes[72..104]) {
            Field::Empty if path.is_empty() => None,
            Field::Code(code) => Some(path.iter().rposition(|up| self.entries[*up].start == code)?),
            _ => return None,
        };
        path.truncate(parent.map_or(0, |at| at + 1));
        if path.len() > DEEPEST {
            return None;
        }
        let slot = self.add(path.last().copied(), number_at(bytes, 0), number_at(bytes, 4));
        self.entries[slot].start = start;
        self.entries[slot].end = end;
        path.push(slot);
        Some(())
    }

    // The same entries with the same parents and codes, in the same order.
    pub fn same(&self, other: &Tree) -> bool {
        let line = |tree: &Tree, slot: usize| {
            let entry = &tree.entries[slot];
            let parent = entry.parent.map(|up| tree.entries[up].identity);
            (entry.identity, entry.tag, entry.start.clone(), entry.end.clone(), parent)
        };
        let lines = |tree: &Tree| tree.in_order().into_iter().map(|slot| line(tree, slot)).collect::<Vec<_>>();
        lines(self) == lines(other)
    }
}

// Edits. Each answers as 01's order of refusals says, and leaves the tree as it was where it refuses.
impl Tree {
    pub fn edit(&mut self, edit: Edit, room: usize) -> Answer {
        if edit.call == Call::Delete {
            self.delete(edit.target)
        } else {
            self.insert(edit, room)
        }
    }

    // The parent of the new entry, and its place in the list of children.
    fn gap(&self, call: Call, target: usize) -> Option<(usize, usize)> {
        let children = &self.entries[target].children;
        match call {
            Call::InsertFirst => return Some((target, 0)),
            Call::InsertLast => return Some((target, children.len())),
            _ => {}
        }
        let parent = self.entries[target].parent?;
        let at = self.entries[parent].children.iter().position(|child| *child == target)?;
        Some((parent, if call == Call::InsertBefore { at } else { at + 1 }))
    }

    // The codes that stand next to a gap along the tour.
    fn neighbours(&self, parent: usize, at: usize) -> (&Digits, &Digits) {
        let up = &self.entries[parent];
        let left = if at == 0 { &up.start } else { &self.entries[up.children[at - 1]].end };
        let right = up.children.get(at).map_or(&up.end, |next| &self.entries[*next].start);
        (left, right)
    }

    fn insert(&mut self, edit: Edit, room: usize) -> Answer {
        let order = self.in_order();
        let present = |identity: u32| order.iter().copied().find(|slot| self.entries[*slot].identity == identity);
        let Some(target) = present(edit.target) else {
            return refused(6);
        };
        let Some((parent, at)) = self.gap(edit.call, target) else {
            return refused(7);
        };
        if edit.identity == 0 || present(edit.identity).is_some() {
            return refused(3);
        }
        if self.depth(parent) + 1 > DEEPEST {
            return refused(10);
        }
        if order.len() >= MOST || room < size(order.len() + 1) {
            return refused(4);
        }
        let (left, right) = self.neighbours(parent, at);
        let start = between(left, right);
        let end = between(&start, right);
        if start.len() > LONGEST || end.len() > LONGEST {
            return refused(8);
        }
        let slot = self.entries.len();
        let entry = Entry { identity: edit.identity, tag: edit.tag, start, end, parent: Some(parent), children: vec![] };
        self.entries.push(entry);
        self.entries[parent].children.insert(at, slot);
        Ok(self.in_order().iter().position(|other| *other == slot).unwrap() as i64)
    }

    fn delete(&mut self, target: u32) -> Answer {
        let Some(place) = self.in_order().iter().position(|slot| self.entries[*slot].identity == target) else {
            return refused(6);
        };
        let slot = self.in_order()[place];
        let Some(parent) = self.entries[slot].parent else {
            return refused(7);
        };
        if !self.is_leaf(slot) {
            return refused(9);
        }
        self.entries[parent].children.retain(|child| *child != slot);
        Ok(place as i64)
    }

    // The neighbours of the place that an insertion names.
    pub fn neighbours_of(&self, edit: Edit) -> Option<(&Digits, &Digits)> {
        let (parent, at) = self.gap(edit.call, self.find(edit.target)?)?;
        Some(self.neighbours(parent, at))
    }
}

// What an edit answers and what it leaves in the buffer; no tree stands for bytes that are not a sound register.
pub fn outcome(tree: Option<&mut Tree>, edit: Edit, before: &[u8]) -> (Answer, Vec<u8>) {
    let mut after = before.to_vec();
    let Some(tree) = tree else {
        return (refused(5), after);
    };
    let answer = tree.edit(edit, before.len());
    if answer.is_ok() {
        let bytes = tree.bytes();
        let cleared = if edit.call == Call::Delete { ENTRY } else { 0 };
        after[..bytes.len()].copy_from_slice(&bytes);
        after[bytes.len()..bytes.len() + cleared].fill(0);
    }
    (answer, after)
}
