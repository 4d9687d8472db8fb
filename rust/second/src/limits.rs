//! The limits that tables, books, pages and the printing program share.

/// Most values a setting can have.
pub const MOST_VALUES: u64 = 64;
/// Most settings a row can have.
pub const MOST_WIDTH: usize = 16;
/// Most rows a table can have.
pub const MOST_ROWS: u64 = 512;
/// Most rules a book can have.
pub const MOST_RULES: u64 = 24_576;
/// Largest budget of a page.
pub const MOST_STEPS: u64 = 65_535;
/// Bytes the printing program reads at most, and bytes it lends for the book.
pub const MOST_INPUT: usize = 65_536;

/// `n` and `l` as the small numbers they are when both stand within their limits.
pub(crate) fn within(n: u64, l: u64) -> Option<(u8, usize)> {
    let width = usize::try_from(l).ok()?;
    let possible = (1..=MOST_VALUES).contains(&n) && (1..=MOST_WIDTH).contains(&width);
    possible.then_some((n as u8, width))
}
