//! What a page of a listing tells besides the rows it writes.

use crate::Cursor;

/// A page that was listed: its rows stand at the start of the room that was lent.
#[derive(Clone, Copy, Debug, PartialEq, Eq)]
pub struct Page {
    /// Rows written, l bytes each.
    pub rows: usize,
    /// Prefixes visited, at most the budget.
    pub steps: usize,
    /// Whether nothing is left to visit.
    pub finished: bool,
    /// The last prefix visited, from which the next page goes on.
    pub cursor: Cursor,
}
