//! Which answers were seen, and which a whole run must have seen.

use std::collections::BTreeSet;
use std::fmt;
use std::ops::RangeInclusive;

use crate::answer::Answer;
use crate::call::{Call, Kind, Way};

/// What an answer shows: the call, the number, and where one number has several cases, which.
#[derive(Clone, Copy, Debug, PartialEq, Eq, PartialOrd, Ord)]
pub struct Sight {
    kind: Kind,
    number: u64,
    case: u64,
}

impl Sight {
    /// What the answer to a call shows.
    pub fn of(call: &Call, answer: &Answer) -> Sight {
        let case = match (call, answer.number) {
            (Call::Make { family, .. }, 0 | 7 | 8) => *family,
            (Call::Test { .. }, 0) => answer.gives[0],
            (Call::Page { .. }, 0) => answer.gives[2],
            (Call::Rule { .. }, _) => u64::from(answer.gives[1] > 0),
            (Call::Move { cursor, .. }, _) => u64::from(answer.cursor != Some(*cursor)),
            _ => 0,
        };
        Sight {
            kind: call.kind(),
            number: answer.number,
            case,
        }
    }
}

/// Every answer that document 01 allows a call, and its cases: families of a make; not permitted
/// and permitted; unfinished and finished; no rule and a rule; the same cursor and another.
const DUE: [(Kind, RangeInclusive<u64>, RangeInclusive<u64>); 18] = [
    (Kind::Check, 0..=5, 0..=0),
    (Kind::Make, 0..=0, 0..=3),
    (Kind::Make, 1..=6, 0..=0),
    (Kind::Make, 7..=7, 1..=3),
    (Kind::Make, 8..=8, 0..=3),
    (Kind::Read, 0..=0, 0..=0),
    (Kind::Read, 9..=15, 0..=0),
    (Kind::Rule, 0..=0, 0..=1),
    (Kind::Test, 0..=0, 0..=1),
    (Kind::Test, 9..=15, 0..=0),
    (Kind::Test, 16..=17, 0..=0),
    (Kind::Move(Way::Down), 0..=0, 0..=1),
    (Kind::Move(Way::Along), 0..=0, 0..=1),
    (Kind::Move(Way::Up), 0..=0, 0..=1),
    (Kind::Page, 0..=0, 0..=1),
    (Kind::Page, 9..=15, 0..=0),
    (Kind::Page, 18..=18, 0..=0),
    (Kind::Page, 19..=20, 0..=0),
];

fn due() -> BTreeSet<Sight> {
    let mut due = BTreeSet::new();
    for (kind, numbers, cases) in DUE {
        for number in numbers {
            let cases = cases.clone();
            due.extend(cases.map(|case| Sight { kind, number, case }));
        }
    }
    due
}

/// The answers seen.
#[derive(Default)]
pub struct Seen {
    sights: BTreeSet<Sight>,
}

impl Seen {
    /// Notes the answer to a call.
    pub fn note(&mut self, call: &Call, answer: &Answer) {
        self.sights.insert(Sight::of(call, answer));
    }

    /// The answers that a run must see and this one did not.
    pub fn missing(&self) -> Vec<Sight> {
        due().difference(&self.sights).copied().collect()
    }

    /// The answers seen that document 01 does not allow their calls.
    pub fn strange(&self) -> Vec<Sight> {
        self.sights.difference(&due()).copied().collect()
    }
}

impl fmt::Display for Sight {
    fn fmt(&self, out: &mut fmt::Formatter) -> fmt::Result {
        let Sight { kind, number, case } = self;
        match (kind, number) {
            (Kind::Make, 0) => write!(out, "make: success in family {case}"),
            (Kind::Make, 7 | 8) => write!(out, "make: refusal {number} in family {case}"),
            (Kind::Test, 0) => write!(out, "test: {}", ["not met", "permitted"][*case as usize]),
            (Kind::Page, 0) => write!(out, "page: {}", ["unfinished", "finished"][*case as usize]),
            (Kind::Rule, _) => write!(out, "rule: {}", ["no rule", "a rule"][*case as usize]),
            (Kind::Move(_), _) => {
                let cases = ["the same cursor", "another cursor"];
                write!(out, "{kind}: {}", cases[*case as usize])
            }
            (_, 0) => write!(out, "{kind}: success"),
            _ => write!(out, "{kind}: refusal {number}"),
        }
    }
}
