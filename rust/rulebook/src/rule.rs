//! A rule as the part of a book that it is, and the rules of a book in order.

use std::fmt;
use std::iter::FusedIterator;

use crate::Literal;

/// Bytes of a rule's record before its literals: the mark and the count.
const BEFORE_LITERALS: usize = 3;
/// Bytes of a literal: setting, sign, bound.
const LITERAL: usize = 3;

/// A rule of an accepted book: met when one of its literals holds.
#[derive(Clone, Copy, PartialEq, Eq, Hash)]
pub struct Rule<'a> {
    record: &'a [u8],
}

impl<'a> Rule<'a> {
    /// The rule that a whole record of an accepted book is.
    pub(crate) fn of(record: &'a [u8]) -> Rule<'a> {
        Rule { record }
    }

    /// The part of the book that the rule is: mark, count and literals.
    pub fn as_bytes(self) -> &'a [u8] {
        self.record
    }

    /// The literals, by setting ascending, negative before positive.
    ///
    /// ```
    /// use rulebook::{make, Family, Literal, Sign};
    ///
    /// let book = make(4, 1, Family::General, &[0, 3])?;
    /// let rule = book.rule(0).unwrap();
    /// let literals: Vec<Literal> = rule.literals().collect();
    /// assert_eq!(literals[0], Literal { setting: 0, sign: Sign::AtMost, bound: 0 });
    /// assert_eq!(literals[1], Literal { setting: 0, sign: Sign::AtLeast, bound: 3 });
    /// # Ok::<(), rulebook::Refusal>(())
    /// ```
    pub fn literals(
        self,
    ) -> impl ExactSizeIterator<Item = Literal> + DoubleEndedIterator + Clone + 'a {
        self.record[BEFORE_LITERALS..]
            .chunks_exact(LITERAL)
            .map(Literal::of)
    }
}

/// The literals with a space between: `0<=0 0>=2 1<=1`. Nothing for a rule without literals.
impl fmt::Display for Rule<'_> {
    fn fmt(&self, out: &mut fmt::Formatter) -> fmt::Result {
        for (number, literal) in self.literals().enumerate() {
            let space = if number == 0 { "" } else { " " };
            write!(out, "{space}{literal}")?;
        }
        Ok(())
    }
}

impl fmt::Debug for Rule<'_> {
    fn fmt(&self, out: &mut fmt::Formatter) -> fmt::Result {
        write!(out, "Rule({self})")
    }
}

/// The rules of a book, in order.
///
/// It goes from record to record by their counts. Asking the archive for each rule by number would
/// read the book from its beginning every time.
#[derive(Clone, Debug)]
pub struct Rules<'a> {
    /// The rules left, and the end after them.
    records: &'a [u8],
    left: usize,
}

impl<'a> Rules<'a> {
    /// The rules whose records begin an accepted book's bytes from there on.
    pub(crate) fn of(records: &'a [u8], left: usize) -> Rules<'a> {
        Rules { records, left }
    }
}

impl<'a> Iterator for Rules<'a> {
    type Item = Rule<'a>;

    fn next(&mut self) -> Option<Rule<'a>> {
        if self.left == 0 {
            return None;
        }
        let literals = usize::from(self.records[BEFORE_LITERALS - 1]);
        let (record, after) = self.records.split_at(BEFORE_LITERALS + LITERAL * literals);
        self.records = after;
        self.left -= 1;
        Some(Rule::of(record))
    }

    fn size_hint(&self) -> (usize, Option<usize>) {
        (self.left, Some(self.left))
    }
}

impl ExactSizeIterator for Rules<'_> {}

impl FusedIterator for Rules<'_> {}
