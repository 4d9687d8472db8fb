//! The twenty refusals, each with its number and what it gives besides.

use std::fmt;

/// Why a call was refused; places count bytes of what was lent, rows count from 0.
#[derive(Clone, Debug, PartialEq, Eq)]
pub enum Refusal {
    /// 1: n or l outside its limits.
    Limits,
    /// 2: the table's length is no multiple of l.
    TableLength,
    /// 3: more than 512 rows.
    TooManyRows {
        /// Rows the table has.
        rows: u64,
    },
    /// 4: a value of the table is n or more.
    TableValue {
        /// Place of the first such value.
        place: u64,
    },
    /// 5: a row is not above the one before it.
    RowOrder {
        /// Number of the first such row.
        row: u64,
    },
    /// 6: the family is above 3.
    NoFamily,
    /// 7: the rows are not closed under the family's operation.
    NotClosed {
        /// Two row numbers for Horn and dual Horn, three for bijunctive.
        rows: Vec<u64>,
    },
    /// 8: the lent room is shorter than the book.
    BookRoom {
        /// Length the book needs.
        length: u64,
    },
    /// 9: the book is cut short.
    CutShort {
        /// Place of the mark of the record that is cut.
        place: u64,
    },
    /// 10: a wrong mark.
    WrongMark {
        /// Place of the mark.
        place: u64,
    },
    /// 11: a field out of range.
    FieldRange {
        /// Place of the field's first byte.
        place: u64,
    },
    /// 12: a literal's setting and sign are not after those of the one before.
    LiteralOrder {
        /// Place of the literal.
        place: u64,
    },
    /// 13: an idle rule.
    IdleRule {
        /// Place of the rule's mark.
        place: u64,
    },
    /// 14: a rule outside the head's family.
    OutsideFamily {
        /// Place of the rule's mark.
        place: u64,
    },
    /// 15: bytes after the end.
    AfterEnd {
        /// Place of the first such byte.
        place: u64,
    },
    /// 16: the combination is not l long.
    CombinationLength,
    /// 17: a value of the combination is n or more.
    CombinationValue {
        /// Place of the first such value.
        place: u64,
    },
    /// 18: a bad cursor.
    BadCursor,
    /// 19: a budget of 0 or above 65,535.
    Budget,
    /// 20: the lent room is shorter than one row.
    RowRoom,
}

impl Refusal {
    /// The number the refusal goes by, 1 to 20.
    pub fn number(&self) -> u64 {
        match self {
            Refusal::Limits => 1,
            Refusal::TableLength => 2,
            Refusal::TooManyRows { .. } => 3,
            Refusal::TableValue { .. } => 4,
            Refusal::RowOrder { .. } => 5,
            Refusal::NoFamily => 6,
            Refusal::NotClosed { .. } => 7,
            Refusal::BookRoom { .. } => 8,
            Refusal::CutShort { .. } => 9,
            Refusal::WrongMark { .. } => 10,
            Refusal::FieldRange { .. } => 11,
            Refusal::LiteralOrder { .. } => 12,
            Refusal::IdleRule { .. } => 13,
            Refusal::OutsideFamily { .. } => 14,
            Refusal::AfterEnd { .. } => 15,
            Refusal::CombinationLength => 16,
            Refusal::CombinationValue { .. } => 17,
            Refusal::BadCursor => 18,
            Refusal::Budget => 19,
            Refusal::RowRoom => 20,
        }
    }

    /// What the refusal gives besides its number, in order.
    pub fn values(&self) -> Vec<u64> {
        match self {
            Refusal::Limits
            | Refusal::TableLength
            | Refusal::NoFamily
            | Refusal::CombinationLength
            | Refusal::BadCursor
            | Refusal::Budget
            | Refusal::RowRoom => vec![],
            Refusal::TooManyRows { rows } => vec![*rows],
            Refusal::RowOrder { row } => vec![*row],
            Refusal::NotClosed { rows } => rows.clone(),
            Refusal::BookRoom { length } => vec![*length],
            Refusal::TableValue { place }
            | Refusal::CutShort { place }
            | Refusal::WrongMark { place }
            | Refusal::FieldRange { place }
            | Refusal::LiteralOrder { place }
            | Refusal::IdleRule { place }
            | Refusal::OutsideFamily { place }
            | Refusal::AfterEnd { place }
            | Refusal::CombinationValue { place } => vec![*place],
        }
    }
}

impl fmt::Display for Refusal {
    fn fmt(&self, out: &mut fmt::Formatter) -> fmt::Result {
        write!(out, "refused {}", self.number())?;
        self.values()
            .iter()
            .try_for_each(|value| write!(out, " {value}"))
    }
}

impl std::error::Error for Refusal {}
