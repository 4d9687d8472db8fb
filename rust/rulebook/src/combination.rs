//! A combination by value: what the iterator over the permitted ones hands out.

use std::fmt;
use std::ops::Deref;

use crate::MOST_SETTINGS;

/// One value for each setting; a slice of them wherever one is wanted.
///
/// Of one width they stand in the order of rows.
#[derive(Clone, Copy, PartialEq, Eq, PartialOrd, Ord, Hash)]
pub struct Combination {
    values: [u8; MOST_SETTINGS],
    len: u8,
}

impl Combination {
    /// The combination that a row of at most sixteen values is.
    pub(crate) fn of(row: &[u8]) -> Combination {
        let mut values = [0; MOST_SETTINGS];
        values[..row.len()].copy_from_slice(row);
        Combination {
            values,
            len: row.len() as u8,
        }
    }
}

impl Deref for Combination {
    type Target = [u8];

    fn deref(&self) -> &[u8] {
        &self.values[..usize::from(self.len)]
    }
}

impl AsRef<[u8]> for Combination {
    fn as_ref(&self) -> &[u8] {
        self
    }
}

impl fmt::Debug for Combination {
    fn fmt(&self, out: &mut fmt::Formatter) -> fmt::Result {
        (**self).fmt(out)
    }
}

impl PartialEq<[u8]> for Combination {
    fn eq(&self, other: &[u8]) -> bool {
        **self == *other
    }
}

impl<const SIZE: usize> PartialEq<[u8; SIZE]> for Combination {
    fn eq(&self, other: &[u8; SIZE]) -> bool {
        **self == *other
    }
}
