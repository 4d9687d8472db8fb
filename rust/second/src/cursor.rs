//! A cursor: a prefix with its length and sixteen values, moved by value.

use crate::limits::{within, MOST_WIDTH};

/// A prefix of a combination; the caller may give any length and any values.
#[derive(Clone, Copy, Debug, PartialEq, Eq, Hash)]
pub struct Cursor {
    /// Number of values used.
    pub length: u64,
    /// The values, zero where unused.
    pub values: [u8; MOST_WIDTH],
}

impl Cursor {
    /// The cursor of length 0.
    pub const BEGINNING: Cursor = Cursor {
        length: 0,
        values: [0; MOST_WIDTH],
    };

    /// The cursor of a prefix of at most sixteen values; values beyond are left out.
    pub fn at(prefix: &[u8]) -> Cursor {
        let mut cursor = Cursor::BEGINNING;
        for (place, value) in cursor.values.iter_mut().zip(prefix) {
            *place = *value;
            cursor.length += 1;
        }
        cursor
    }

    /// Whether this is a prefix for `n` and `l`; where those are outside their limits none is.
    pub fn valid(&self, n: u64, l: u64) -> bool {
        self.prefix(n, l).is_some()
    }

    /// The used values, if the cursor is valid.
    pub(crate) fn prefix(&self, n: u64, l: u64) -> Option<&[u8]> {
        let (n, l) = within(n, l)?;
        let length = usize::try_from(self.length).ok()?;
        if length > l {
            return None;
        }
        let (used, unused) = self.values.split_at(length);
        let sound = used.iter().all(|value| *value < n) && unused.iter().all(|value| *value == 0);
        sound.then_some(used)
    }

    /// Down to the prefix one longer that ends in 0.
    pub fn down(self, n: u64, l: u64) -> Cursor {
        match self.prefix(n, l) {
            Some(prefix) if self.length < l => Cursor::at(&[prefix, &[0]].concat()),
            _ => self,
        }
    }

    /// Along to the next value at the last place.
    pub fn along(self, n: u64, l: u64) -> Cursor {
        match self.prefix(n, l).and_then(<[u8]>::split_last) {
            Some((last, before)) if u64::from(*last) + 1 < n => {
                Cursor::at(&[before, &[last + 1]].concat())
            }
            _ => self,
        }
    }

    /// Up to the prefix one shorter.
    pub fn up(self, n: u64, l: u64) -> Cursor {
        match self.prefix(n, l).and_then(<[u8]>::split_last) {
            Some((_, before)) => Cursor::at(before),
            None => self,
        }
    }
}
