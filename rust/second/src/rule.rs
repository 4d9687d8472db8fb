//! A rule: a set of literals, met when one of them holds.

use std::collections::BTreeSet;

use crate::literal::{Literal, Sign};

/// A set of literals in the order they have in a book.
#[derive(Clone, Debug, PartialEq, Eq)]
pub struct Rule {
    literals: Vec<Literal>,
}

impl FromIterator<Literal> for Rule {
    fn from_iter<I: IntoIterator<Item = Literal>>(literals: I) -> Rule {
        let set: BTreeSet<Literal> = literals.into_iter().collect();
        Rule {
            literals: set.into_iter().collect(),
        }
    }
}

impl Rule {
    /// The literals, by setting ascending, "at most" before "at least".
    pub fn literals(&self) -> &[Literal] {
        &self.literals
    }

    /// Number of literals of one sign.
    pub fn count(&self, sign: Sign) -> usize {
        let literals = self.literals.iter();
        literals.filter(|literal| literal.sign == sign).count()
    }

    /// Whether some literal holds; never for a rule with no literals.
    pub fn met_by(&self, values: &[u8]) -> bool {
        self.literals.iter().any(|literal| literal.holds(values))
    }

    /// Length of the shortest prefix that has all the rule's settings within it.
    pub fn reach(&self) -> usize {
        self.literals
            .iter()
            .map(|literal| usize::from(literal.setting) + 1)
            .max()
            .unwrap_or(0)
    }

    /// Whether two literals on one setting together leave no value out.
    ///
    /// The order puts the widest "at most" and the widest "at least" of a setting side by side.
    pub fn idle(&self) -> bool {
        self.literals.windows(2).any(|pair| {
            let (low, high) = (pair[0], pair[1]);
            low.setting == high.setting
                && low.sign == Sign::AtMost
                && high.sign == Sign::AtLeast
                && high.bound <= low.bound
        })
    }
}
