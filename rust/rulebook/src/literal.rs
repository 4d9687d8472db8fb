//! A literal: one setting at most, or at least, at a bound.

use std::fmt;

/// Which side of its bound a literal asks for.
#[derive(Clone, Copy, Debug, PartialEq, Eq, PartialOrd, Ord, Hash)]
pub enum Sign {
    /// Negative: the setting is at most the bound.
    AtMost,
    /// Positive: the setting is at least the bound.
    AtLeast,
}

/// A condition on one setting.
#[derive(Clone, Copy, Debug, PartialEq, Eq, PartialOrd, Ord, Hash)]
pub struct Literal {
    /// The setting, from 0.
    pub setting: usize,
    /// The side of the bound that it asks for.
    pub sign: Sign,
    /// The bound, which itself is allowed.
    pub bound: u8,
}

impl Literal {
    /// The literal that three bytes of an accepted book are.
    pub(crate) fn of(bytes: &[u8]) -> Literal {
        Literal {
            setting: usize::from(bytes[0]),
            sign: match bytes[1] {
                0 => Sign::AtMost,
                _ => Sign::AtLeast,
            },
            bound: bytes[2],
        }
    }
}

/// Setting, sign, bound: `0<=3` or `0>=4`.
impl fmt::Display for Literal {
    fn fmt(&self, out: &mut fmt::Formatter) -> fmt::Result {
        let sign = match self.sign {
            Sign::AtMost => "<=",
            Sign::AtLeast => ">=",
        };
        write!(out, "{}{sign}{}", self.setting, self.bound)
    }
}
