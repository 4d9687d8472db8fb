//! The twenty refusals, each with its number and what it gives.

use std::error::Error;
use std::fmt;

use crate::sys::Answer;

/// Why a call was refused. Places count the bytes of what was lent, rows the rows of the table,
/// both from 0.
#[derive(Clone, Copy, Debug, PartialEq, Eq, Hash)]
pub enum Refusal {
    /// 1: n or l is outside its limits, 1 to 64 and 1 to 16.
    Limits,
    /// 2: the table's length is no multiple of l.
    Length,
    /// 3: the table has more than 512 rows.
    Rows {
        /// How many it has.
        rows: usize,
    },
    /// 4: a value of the table is n or more.
    Value {
        /// The first such value's place.
        place: usize,
    },
    /// 5: a row is not above the one before it.
    Order {
        /// The first such row's number.
        row: usize,
    },
    /// 6: the family is above 3.
    Family,
    /// 7: the table is not closed under the family's operation.
    Open {
        /// The first rows whose conjunction, disjunction or median is no row.
        rows: OpenRows,
    },
    /// 8: the room is shorter than the book.
    Room {
        /// The length that the book needs.
        needed: usize,
    },
    /// 9: the book is cut short.
    Cut {
        /// The place of the mark of the record that is cut.
        place: usize,
    },
    /// 10: a mark is wrong.
    Mark {
        /// Its place.
        place: usize,
    },
    /// 11: a field is out of range.
    Field {
        /// The place of its first byte.
        place: usize,
    },
    /// 12: a literal's setting and sign are not after those of the one before.
    Literal {
        /// The literal's place.
        place: usize,
    },
    /// 13: a rule is idle: on one setting it has "at most a" and "at least b" with b at most a.
    Idle {
        /// The place of its mark.
        place: usize,
    },
    /// 14: a rule is outside the head's family.
    Outside {
        /// The place of its mark.
        place: usize,
    },
    /// 15: bytes stand after the end.
    Trailing {
        /// The first one's place.
        place: usize,
    },
    /// 16: the combination is not l long.
    Combination,
    /// 17: a value of the combination is n or more.
    High {
        /// The first such value's place.
        place: usize,
    },
    /// 18: the cursor is no prefix of a combination.
    Cursor,
    /// 19: the budget is 0 or above 65,535.
    Budget,
    /// 20: the room is shorter than one row.
    NoRow,
}

/// The rows that show that a table is not closed: numbers from 0, ascending.
#[derive(Clone, Copy, Debug, PartialEq, Eq, Hash)]
pub enum OpenRows {
    /// Two rows whose minimum (Horn) or maximum (dual Horn) is no row.
    Pair(usize, usize),
    /// Three rows whose median (bijunctive) is no row.
    Triple(usize, usize, usize),
}

impl Refusal {
    /// The number that the refusal goes by, 1 to 20.
    ///
    /// ```
    /// assert_eq!(rulebook::check(65, 1, &[]).unwrap_err().number(), 1);
    /// ```
    pub fn number(self) -> usize {
        match self {
            Refusal::Limits => 1,
            Refusal::Length => 2,
            Refusal::Rows { .. } => 3,
            Refusal::Value { .. } => 4,
            Refusal::Order { .. } => 5,
            Refusal::Family => 6,
            Refusal::Open { .. } => 7,
            Refusal::Room { .. } => 8,
            Refusal::Cut { .. } => 9,
            Refusal::Mark { .. } => 10,
            Refusal::Field { .. } => 11,
            Refusal::Literal { .. } => 12,
            Refusal::Idle { .. } => 13,
            Refusal::Outside { .. } => 14,
            Refusal::Trailing { .. } => 15,
            Refusal::Combination => 16,
            Refusal::High { .. } => 17,
            Refusal::Cursor => 18,
            Refusal::Budget => 19,
            Refusal::NoRow => 20,
        }
    }

    /// What the refusal gives besides its number, in order.
    pub fn gives(self) -> Vec<usize> {
        match self {
            Refusal::Limits
            | Refusal::Length
            | Refusal::Family
            | Refusal::Combination
            | Refusal::Cursor
            | Refusal::Budget
            | Refusal::NoRow => vec![],
            Refusal::Rows { rows } => vec![rows],
            Refusal::Order { row } => vec![row],
            Refusal::Open { rows } => match rows {
                OpenRows::Pair(a, b) => vec![a, b],
                OpenRows::Triple(a, b, c) => vec![a, b, c],
            },
            Refusal::Room { needed } => vec![needed],
            Refusal::Value { place }
            | Refusal::Cut { place }
            | Refusal::Mark { place }
            | Refusal::Field { place }
            | Refusal::Literal { place }
            | Refusal::Idle { place }
            | Refusal::Outside { place }
            | Refusal::Trailing { place }
            | Refusal::High { place } => vec![place],
        }
    }

    fn in_words(self) -> &'static str {
        match self {
            Refusal::Limits => "n or l is outside its limits",
            Refusal::Length => "the table's length is no multiple of l",
            Refusal::Rows { .. } => "the table has more than 512 rows",
            Refusal::Value { .. } => "a value of the table is n or more",
            Refusal::Order { .. } => "a row is not above the one before it",
            Refusal::Family => "the family is above 3",
            Refusal::Open { .. } => "the table is not closed for the family",
            Refusal::Room { .. } => "the room is shorter than the book",
            Refusal::Cut { .. } => "the book is cut short",
            Refusal::Mark { .. } => "a mark is wrong",
            Refusal::Field { .. } => "a field is out of range",
            Refusal::Literal { .. } => "a literal is not after the one before it",
            Refusal::Idle { .. } => "a rule is idle",
            Refusal::Outside { .. } => "a rule is outside the head's family",
            Refusal::Trailing { .. } => "bytes stand after the end",
            Refusal::Combination => "the combination is not l long",
            Refusal::High { .. } => "a value of the combination is n or more",
            Refusal::Cursor => "the cursor is no prefix of a combination",
            Refusal::Budget => "the budget is 0 or above 65,535",
            Refusal::NoRow => "the room is shorter than one row",
        }
    }
}

/// The line that the printing program writes, then the same in words.
///
/// ```
/// let refusal = rulebook::check(3, 2, &[0, 1, 0, 1]).unwrap_err();
/// assert_eq!(refusal.to_string(), "refused 5 1: a row is not above the one before it");
/// ```
impl fmt::Display for Refusal {
    fn fmt(&self, out: &mut fmt::Formatter) -> fmt::Result {
        write!(out, "refused {}", self.number())?;
        for given in self.gives() {
            write!(out, " {given}")?;
        }
        write!(out, ": {}", self.in_words())
    }
}

impl Error for Refusal {}

impl Answer {
    /// What the call gives, or its refusal by name.
    ///
    /// # Panics
    ///
    /// Where the number is above 20, which no call answers.
    pub fn given(self) -> Result<[usize; 4], Refusal> {
        let [first, second, third, _] = self.gives;
        let place = first;
        Err(match self.number {
            0 => return Ok(self.gives),
            1 => Refusal::Limits,
            2 => Refusal::Length,
            3 => Refusal::Rows { rows: first },
            4 => Refusal::Value { place },
            5 => Refusal::Order { row: first },
            6 => Refusal::Family,
            7 => Refusal::Open {
                // The third of three ascending numbers is at least 2, and 0 stands where there is none.
                rows: match third {
                    0 => OpenRows::Pair(first, second),
                    _ => OpenRows::Triple(first, second, third),
                },
            },
            8 => Refusal::Room { needed: first },
            9 => Refusal::Cut { place },
            10 => Refusal::Mark { place },
            11 => Refusal::Field { place },
            12 => Refusal::Literal { place },
            13 => Refusal::Idle { place },
            14 => Refusal::Outside { place },
            15 => Refusal::Trailing { place },
            16 => Refusal::Combination,
            17 => Refusal::High { place },
            18 => Refusal::Cursor,
            19 => Refusal::Budget,
            20 => Refusal::NoRow,
            number => panic!("no refusal has the number {number}"),
        })
    }
}
