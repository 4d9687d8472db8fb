//! The text the printing program prints for its input.

use crate::book::Book;
use crate::limits::MOST_INPUT;
use crate::maker::make;
use crate::refusal::Refusal;
use crate::rule::Rule;

/// Describes the book of an input of n, l, family and a table, or its refusal.
///
/// Only the first 65,536 bytes of the input count, and missing first bytes count as 0.
pub fn describe(input: &[u8]) -> String {
    let input = &input[..input.len().min(MOST_INPUT)];
    match made_book(input) {
        Ok(book) => lines(&book),
        Err(refusal) => format!("{refusal}\n"),
    }
}

fn made_book(input: &[u8]) -> Result<Book, Refusal> {
    let first = |place: usize| u64::from(input.get(place).copied().unwrap_or(0));
    let table = input.get(3..).unwrap_or(&[]);
    let mut room = vec![0; MOST_INPUT];
    let made = make(first(0), first(1), first(2), table, &mut room)?;
    Book::read(&room[..made.length as usize])
}

fn lines(book: &Book) -> String {
    let head = book.head();
    let mut text = format!(
        "book {} {} {} {}\n",
        head.n, head.l, head.family, head.rules
    );
    for (number, rule) in book.rules().iter().enumerate() {
        text += &format!("rule {number}{}\n", literals(rule));
    }
    text
}

fn literals(rule: &Rule) -> String {
    let literals = rule.literals().iter();
    literals.map(|literal| format!(" {literal}")).collect()
}
