//! Asks both sides the same call and holds their answers to each other.

use std::fmt;
use std::thread;

use crate::answer::Answer;
use crate::call::{Call, Kind};
use crate::seen::{Seen, Sight};
use crate::shrink::smallest;

/// One of the two that are asked.
pub type Side = fn(&Call) -> Answer;

/// The two sides, and what came of asking them.
pub struct Comparer {
    archive: Side,
    second: Side,
    calls: u64,
    differences: u64,
    seen: Seen,
    /// The kinds of call of which this group has shown a difference.
    shown: Vec<Kind>,
    found: Vec<Difference>,
}

/// A call to which the two sides answer differently.
#[derive(Clone, Debug, PartialEq, Eq)]
pub struct Difference {
    pub call: Call,
    pub archive: Answer,
    pub second: Answer,
}

impl Comparer {
    /// Two sides of which nothing was asked yet.
    pub fn new(archive: Side, second: Side) -> Comparer {
        Comparer {
            archive,
            second,
            calls: 0,
            differences: 0,
            seen: Seen::default(),
            shown: Vec::new(),
            found: Vec::new(),
        }
    }

    /// Asks both sides, and gives the second program's answer to go on with.
    pub fn ask(&mut self, call: Call) -> Answer {
        let in_hand = InHand(&call);
        let (archive, second) = ((self.archive)(&call), (self.second)(&call));
        drop(in_hand);
        self.calls += 1;
        self.seen.note(&call, &second);
        if archive != second {
            self.differences += 1;
            self.find(call);
        }
        second
    }

    /// Makes the group's first difference of a kind of call small; those after it only count.
    fn find(&mut self, call: Call) {
        if self.shown.contains(&call.kind()) {
            return;
        }
        self.shown.push(call.kind());
        let (archive, second) = (self.archive, self.second);
        let call = smallest(call, |call| archive(call) != second(call));
        let difference = Difference {
            archive: archive(&call),
            second: second(&call),
            call,
        };
        if !self.found.contains(&difference) {
            self.found.push(difference);
        }
    }

    /// How many calls were asked of each side.
    pub fn calls(&self) -> u64 {
        self.calls
    }

    /// How many of them were answered differently.
    pub fn differences(&self) -> u64 {
        self.differences
    }

    /// The differences found, each as the smallest call that shows it.
    pub fn found(&self) -> &[Difference] {
        &self.found
    }

    /// Begins a group, of which no difference was shown yet.
    pub fn start_group(&mut self) {
        self.shown.clear();
    }

    /// Answers that a whole run must see and that were not seen.
    pub fn missing(&self) -> Vec<Sight> {
        self.seen.missing()
    }

    /// Answers seen that document 01 does not allow.
    pub fn strange(&self) -> Vec<Sight> {
        self.seen.strange()
    }
}

/// Prints the call that is being asked where one side panics.
struct InHand<'a>(&'a Call);

impl Drop for InHand<'_> {
    fn drop(&mut self) {
        if thread::panicking() {
            println!("a side panicked at {}", self.0);
        }
    }
}

impl fmt::Display for Difference {
    fn fmt(&self, out: &mut fmt::Formatter) -> fmt::Result {
        writeln!(out, "{}", self.call)?;
        writeln!(out, "  archive: {}", self.archive)?;
        write!(out, "  second:  {}", self.second)?;
        if let (Some(one), Some(other)) = (&self.archive.room, &self.second.room) {
            let mut both = one.bytes().iter().zip(other.bytes());
            if let Some(place) = both.position(|(one, other)| one != other) {
                write!(out, "\n  the rooms differ, first at place {place}")?;
            }
        }
        Ok(())
    }
}
