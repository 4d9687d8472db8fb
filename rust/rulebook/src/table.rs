//! The check of a table.

use crate::{sys, Refusal};

/// Checks a table of l bytes a row: values below n, rows strictly ascending, at most 512 of them.
/// Gives the number of rows, or the first of refusals 1 to 5.
///
/// ```
/// use rulebook::{check, Refusal};
///
/// assert_eq!(check(3, 2, &[0, 1, 1, 1, 2, 2]), Ok(3));
/// assert_eq!(check(3, 2, &[]), Ok(0));
/// assert_eq!(check(3, 2, &[0, 1, 1, 3]), Err(Refusal::Value { place: 3 }));
/// assert_eq!(check(3, 2, &[1, 1, 0, 1]), Err(Refusal::Order { row: 1 }));
/// ```
pub fn check(n: usize, l: usize, table: &[u8]) -> Result<usize, Refusal> {
    sys::check(n, l, table).given().map(|[rows, ..]| rows)
}
