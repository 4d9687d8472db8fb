//! Tests a combination against a book.

use crate::book::Book;
use crate::refusal::Refusal;

/// What a test of a combination answers.
#[derive(Clone, Copy, Debug, PartialEq, Eq)]
pub enum Tested {
    /// All rules are met.
    Permitted,
    /// The number of the first rule not met.
    NotMet(u64),
}

/// Tests a combination: book faults, then 16, then 17.
pub fn test(book: &[u8], combination: &[u8]) -> Result<Tested, Refusal> {
    let book = Book::read(book)?;
    if combination.len() != book.l() {
        return Err(Refusal::CombinationLength);
    }
    if let Some(place) = combination.iter().position(|value| *value >= book.n()) {
        let place = place as u64;
        return Err(Refusal::CombinationValue { place });
    }
    let not_met = book
        .rules()
        .iter()
        .position(|rule| !rule.met_by(combination));
    Ok(match not_met {
        None => Tested::Permitted,
        Some(number) => Tested::NotMet(number as u64),
    })
}
