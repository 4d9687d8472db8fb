//! The four families of rules.

use std::fmt;

use crate::Refusal;

/// A family, by what it allows in one rule.
#[derive(Clone, Copy, Debug, PartialEq, Eq, Hash)]
pub enum Family {
    /// 0: any rule.
    General,
    /// 1: at most one positive literal. For tables closed under conjunction.
    Horn,
    /// 2: at most one negative literal. For tables closed under disjunction.
    DualHorn,
    /// 3: at most two literals. For tables closed under median.
    Bijunctive,
}

impl Family {
    /// All four, each at the place of its number.
    pub const ALL: [Family; 4] = [
        Family::General,
        Family::Horn,
        Family::DualHorn,
        Family::Bijunctive,
    ];

    /// The family's number, as it stands in a book's head.
    pub fn number(self) -> usize {
        self as usize
    }
}

/// The family of a number; above 3 it is refused as 6.
///
/// ```
/// use rulebook::{Family, Refusal};
///
/// assert_eq!(Family::try_from(2), Ok(Family::DualHorn));
/// assert_eq!(Family::try_from(4), Err(Refusal::Family));
/// ```
impl TryFrom<usize> for Family {
    type Error = Refusal;

    fn try_from(number: usize) -> Result<Family, Refusal> {
        Family::ALL.get(number).copied().ok_or(Refusal::Family)
    }
}

impl fmt::Display for Family {
    fn fmt(&self, out: &mut fmt::Formatter) -> fmt::Result {
        out.pad(match self {
            Family::General => "general",
            Family::Horn => "Horn",
            Family::DualHorn => "dual Horn",
            Family::Bijunctive => "bijunctive",
        })
    }
}
