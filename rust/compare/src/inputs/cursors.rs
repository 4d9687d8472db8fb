//! Cursors: prefixes, and cursors that are none.

use second::Cursor;

use super::{combinations, WIDE};
use crate::chance::Chance;

/// Every cursor of at most so many values up to a value.
pub fn all(most: u64, length: u64) -> impl Iterator<Item = Cursor> {
    (0..=length)
        .flat_map(move |length| combinations(most + 1, length).map(|values| Cursor::at(&values)))
}

/// A cursor that is more often than not a prefix for n and l.
pub fn any(chance: &mut Chance, n: u64, l: u64) -> Cursor {
    let (n, l) = (n.clamp(1, 64), l.min(16));
    let length = chance.within(0, l);
    let mut cursor = Cursor::at(&chance.bytes(length, n));
    match chance.pick(10) {
        0 => cursor.length = chance.among(&[l + 1, 15, 16, 17, 255, 256]),
        1 => cursor.length = chance.among(&WIDE),
        2 => cursor.values[chance.place(16)] = chance.byte(256),
        3 => cursor.values[chance.place(16)] = n as u8,
        _ => {}
    }
    cursor
}
