// How often each call gave each answer, and what else was met; what never came up fails the run.
use crate::calls::{name, Call};
use crate::codes::Answer;

const NUMBERS: usize = 14;

// The refusal numbers that a call can give; 0 stands for accepted.
fn possible(call: Call) -> &'static [usize] {
    match call {
        Call::Pack | Call::Unpack => &[0, 4, 12],
        Call::Between => &[0, 4, 8, 12, 13],
        Call::Order | Call::Above | Call::Parent | Call::Sibling => &[0, 11],
        Call::Place | Call::Depth | Call::Distance => &[0, 5, 6],
        Call::Label => &[0, 1, 2, 3, 4],
        Call::InsertFirst | Call::InsertLast => &[0, 3, 4, 5, 6, 8, 10],
        Call::InsertBefore | Call::InsertAfter => &[0, 3, 4, 5, 6, 7, 8],
        Call::Delete => &[0, 5, 6, 7, 9],
    }
}

pub const CALLS: [Call; 16] = [
    Call::Pack,
    Call::Unpack,
    Call::Between,
    Call::Order,
    Call::Above,
    Call::Parent,
    Call::Sibling,
    Call::Place,
    Call::Depth,
    Call::Distance,
    Call::Label,
    Call::InsertFirst,
    Call::InsertLast,
    Call::InsertBefore,
    Call::InsertAfter,
    Call::Delete,
];

#[derive(Clone, Copy)]
pub enum Event {
    Earlier,
    SameStart,
    Later,
    Above,
    NotAbove,
    Parent,
    NotParent,
    Sibling,
    NotSibling,
    RowOfDepth,
    RowOfIdentity,
    ShorterLeft2,
    ShorterLeft3,
    EqualLengths,
    LongerLeft2,
    LongerLeft3,
    LongestCode,
    EndTooLong,
    FullWithRoom,
    FullNow,
    Deepest,
    BehindChildren,
    IdentityAgain,
    DamagedSound,
    DamagedUnsound,
    TooDeep,
    TooMany,
    BothOpen,
}

const EVENTS: [&str; 28] = [
    "earlier",
    "same start",
    "later",
    "above",
    "not above",
    "parent",
    "not parent",
    "sibling",
    "not sibling",
    "depth refused below the first row",
    "identity refused below the first row",
    "longer right neighbour ends in 2",
    "longer right neighbour ends in 3",
    "neighbours of equal length",
    "longer left neighbour ends in 2",
    "longer left neighbour ends in 3",
    "code of 127 digits put in",
    "end alone too long",
    "4,096 entries refused one more",
    "entry number 4,096 put in",
    "entry put in at depth 63",
    "put in behind an entry with children",
    "deleted identity put in again",
    "damaged register still sound",
    "damaged register unsound",
    "table and register of depth 64",
    "register of 4,097 entries",
    "both sides open",
];

pub struct Counts {
    answers: [[u64; NUMBERS]; CALLS.len()],
    events: [u64; EVENTS.len()],
}

impl Counts {
    pub fn new() -> Counts {
        Counts { answers: [[0; NUMBERS]; CALLS.len()], events: [0; EVENTS.len()] }
    }

    pub fn note(&mut self, event: Event) {
        self.events[event as usize] += 1;
    }

    pub fn note_if(&mut self, met: bool, event: Event) {
        self.events[event as usize] += u64::from(met);
    }

    pub fn answered(&mut self, call: Call, answer: Answer) {
        let number = answer.err().map_or(0, |refusal| refusal.number);
        self.answers[call as usize][number] += 1;
        match (call, answer) {
            (Call::Order, Ok(value)) => self.note([Event::Earlier, Event::SameStart, Event::Later][(value + 1) as usize]),
            (Call::Above, Ok(value)) => self.note([Event::NotAbove, Event::Above][value as usize]),
            (Call::Parent, Ok(value)) => self.note([Event::NotParent, Event::Parent][value as usize]),
            (Call::Sibling, Ok(value)) => self.note([Event::NotSibling, Event::Sibling][value as usize]),
            (Call::Label, Err(refusal)) => {
                self.note_if(refusal.number == 2 && refusal.row > 0, Event::RowOfDepth);
                self.note_if(refusal.number == 3 && refusal.row > 0, Event::RowOfIdentity);
            }
            _ => {}
        }
    }

    pub fn print(&self) {
        for call in CALLS {
            let counts = &self.answers[call as usize];
            let refusals: Vec<String> =
                (1..NUMBERS).filter(|n| counts[*n] > 0).map(|n| format!("refused {n}: {}", counts[n])).collect();
            println!("{:20} accepted {:7}  {}", name(call), counts[0], refusals.join(", "));
        }
        for (event, count) in EVENTS.iter().zip(self.events) {
            println!("{event}: {count}");
        }
    }

    // What should have come up and did not.
    pub fn missing(&self) -> Vec<String> {
        let mut missing = Vec::new();
        for call in CALLS {
            let never = possible(call).iter().filter(|n| self.answers[call as usize][**n] == 0);
            missing.extend(never.map(|n| format!("{}, number {n}", name(call))));
        }
        let never = EVENTS.iter().zip(self.events).filter(|(_, count)| *count == 0);
        missing.extend(never.map(|(event, _)| event.to_string()));
        missing
    }
}
