//! What one side answers to a call, and the bytes it was lent, as they are afterwards.

use std::fmt;

use second::Cursor;

use crate::room::Room;
use crate::shown::{Bytes, Place};

/// The longest room that is printed.
const SHORT: usize = 64;

/// An answer. Two are equal if a caller could not tell them apart.
#[derive(Clone, Debug, Default, PartialEq, Eq)]
pub struct Answer {
    /// 0 for success, else the number of the refusal; moves and rules by number refuse nothing.
    pub number: u64,
    /// What the call or the refusal gives, zero past it; for a rule, its place and its length.
    pub gives: [u64; 4],
    /// The cursor that a page or a move gives.
    pub cursor: Option<Cursor>,
    /// The lent room, where the call is lent one.
    pub room: Option<Room>,
    /// Whether a byte changed that was lent to be read.
    pub changed: bool,
}

impl Answer {
    /// A success that gives these numbers.
    pub fn giving<const COUNT: usize>(given: [u64; COUNT]) -> Answer {
        Answer::numbered(0, &given)
    }

    /// The answer of a number, with what it gives.
    pub fn numbered(number: u64, given: &[u64]) -> Answer {
        Answer {
            number,
            gives: std::array::from_fn(|place| given.get(place).copied().unwrap_or(0)),
            ..Answer::default()
        }
    }
}

impl fmt::Display for Answer {
    fn fmt(&self, out: &mut fmt::Formatter) -> fmt::Result {
        let [first, second, third, fourth] = self.gives;
        write!(
            out,
            "number {}, gives {first} {second} {third} {fourth}",
            self.number
        )?;
        if let Some(cursor) = &self.cursor {
            write!(out, ", {}", Place(cursor))?;
        }
        if let Some(room) = &self.room {
            match room.bytes() {
                long if long.len() > SHORT => write!(out, ", room of {} bytes", long.len())?,
                short => write!(out, ", room {}", Bytes(short))?,
            }
            if !room.borders_stand() {
                write!(out, ", bytes outside the room written")?;
            }
        }
        if self.changed {
            write!(out, ", bytes lent to be read changed")?;
        }
        Ok(())
    }
}
