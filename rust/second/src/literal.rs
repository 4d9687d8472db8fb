//! A literal: one setting held at most, or at least, at a bound.

use std::fmt;

/// Which side of its bound a literal asks for; "at most" stands first wherever order matters.
#[derive(Clone, Copy, Debug, PartialEq, Eq, PartialOrd, Ord, Hash)]
pub enum Sign {
    /// Negative: the setting is at most the bound.
    AtMost,
    /// Positive: the setting is at least the bound.
    AtLeast,
}

impl Sign {
    /// The byte that stands for the sign in a book.
    pub fn byte(self) -> u8 {
        match self {
            Sign::AtMost => 0,
            Sign::AtLeast => 1,
        }
    }
}

/// One condition on one setting.
///
/// The fields stand in the order in which literals are compared, so that the derived order is the
/// order literals have in a rule.
#[derive(Clone, Copy, Debug, PartialEq, Eq, PartialOrd, Ord, Hash)]
pub struct Literal {
    /// The setting, from 0.
    pub setting: u8,
    /// The side of the bound.
    pub sign: Sign,
    /// The bound, itself allowed.
    pub bound: u8,
}

impl Literal {
    /// "Setting at most bound".
    pub fn at_most(setting: usize, bound: u8) -> Literal {
        Literal {
            setting: setting as u8,
            sign: Sign::AtMost,
            bound,
        }
    }

    /// "Setting at least bound".
    pub fn at_least(setting: usize, bound: u8) -> Literal {
        Literal {
            setting: setting as u8,
            sign: Sign::AtLeast,
            bound,
        }
    }

    /// Whether the literal holds; on a setting that is not among the values it does not.
    pub fn holds(&self, values: &[u8]) -> bool {
        values
            .get(usize::from(self.setting))
            .is_some_and(|value| match self.sign {
                Sign::AtMost => *value <= self.bound,
                Sign::AtLeast => *value >= self.bound,
            })
    }
}

impl fmt::Display for Literal {
    fn fmt(&self, out: &mut fmt::Formatter) -> fmt::Result {
        let sign = match self.sign {
            Sign::AtMost => "<=",
            Sign::AtLeast => ">=",
        };
        write!(out, "{}{}{}", self.setting, sign, self.bound)
    }
}
