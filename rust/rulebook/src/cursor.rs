//! A cursor: a prefix of a combination, moved by value.

use crate::{sys, MOST_SETTINGS};

/// Where a listing stands: a prefix of a combination, its length and its values.
///
/// A caller may store one and give it back, or make one up: a page refuses what is no prefix.
#[repr(C)]
#[derive(Clone, Copy, Debug, Default, PartialEq, Eq, Hash)]
pub struct Cursor {
    /// How many values the prefix has.
    pub len: usize,
    /// Its values, zero where unused.
    pub values: [u8; MOST_SETTINGS],
}

impl Cursor {
    /// The cursor of length 0, before every combination.
    pub const BEGINNING: Cursor = Cursor {
        len: 0,
        values: [0; MOST_SETTINGS],
    };

    /// The cursor of a prefix; none where it has more than sixteen values.
    pub fn at(prefix: &[u8]) -> Option<Cursor> {
        let mut cursor = Cursor::BEGINNING;
        cursor.len = prefix.len();
        cursor
            .values
            .get_mut(..prefix.len())?
            .copy_from_slice(prefix);
        Some(cursor)
    }

    /// The values of the prefix, at most sixteen.
    pub fn prefix(&self) -> &[u8] {
        &self.values[..self.len.min(MOST_SETTINGS)]
    }

    /// Down to the prefix one longer that ends in 0.
    ///
    /// As every move it gives the same cursor where there is no such prefix, where n or l is outside
    /// its limits, and where this is no prefix for them.
    ///
    /// ```
    /// use rulebook::Cursor;
    ///
    /// let cursor = Cursor::BEGINNING.down(3, 2).along(3, 2).down(3, 2);
    /// assert_eq!(cursor.prefix(), [1, 0]);
    /// assert_eq!(cursor.down(3, 2), cursor);
    /// assert_eq!(cursor.up(3, 2).prefix(), [1]);
    /// ```
    #[must_use]
    pub fn down(self, n: usize, l: usize) -> Cursor {
        sys::down(self, n, l)
    }

    /// Along to the next value at the last place.
    #[must_use]
    pub fn along(self, n: usize, l: usize) -> Cursor {
        sys::along(self, n, l)
    }

    /// Up to the prefix one shorter.
    #[must_use]
    pub fn up(self, n: usize, l: usize) -> Cursor {
        sys::up(self, n, l)
    }
}
