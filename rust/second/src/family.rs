//! The four families of rules.

use crate::literal::Sign;
use crate::rule::Rule;

/// A family, by what it allows in one rule.
#[derive(Clone, Copy, Debug, PartialEq, Eq)]
pub enum Family {
    /// 0: any rule.
    General,
    /// 1: at most one positive literal.
    Horn,
    /// 2: at most one negative literal.
    DualHorn,
    /// 3: at most two literals.
    Bijunctive,
}

impl Family {
    /// All four, each at the place of its number.
    pub const ALL: [Family; 4] = [
        Family::General,
        Family::Horn,
        Family::DualHorn,
        Family::Bijunctive,
    ];

    /// The family of a number, none above 3.
    pub fn numbered(number: u64) -> Option<Family> {
        let place = usize::try_from(number).ok()?;
        Family::ALL.get(place).copied()
    }

    /// The family's number, as it stands in a book's head.
    pub fn number(self) -> u8 {
        match self {
            Family::General => 0,
            Family::Horn => 1,
            Family::DualHorn => 2,
            Family::Bijunctive => 3,
        }
    }

    /// Whether the rule is in the family.
    pub fn allows(self, rule: &Rule) -> bool {
        match self {
            Family::General => true,
            Family::Horn => rule.count(Sign::AtLeast) <= 1,
            Family::DualHorn => rule.count(Sign::AtMost) <= 1,
            Family::Bijunctive => rule.literals().len() <= 2,
        }
    }
}
