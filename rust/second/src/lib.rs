//! An independent second implementation of the rule-book library: tables, books of rules, pages.
//!
//! It exists to be compared with another implementation, so it prefers the form closest to the
//! written definitions over the fastest one, and shares no code with what it is compared to.

#![forbid(unsafe_code)]
#![warn(missing_docs)]

mod book;
mod closure;
mod cursor;
mod describe;
mod family;
mod limits;
mod literal;
mod maker;
mod page;
mod refusal;
mod rule;
mod table;
mod test;

pub use book::{read, rule, Book, Head};
pub use cursor::Cursor;
pub use describe::describe;
pub use family::Family;
pub use limits::{MOST_INPUT, MOST_ROWS, MOST_RULES, MOST_STEPS, MOST_VALUES, MOST_WIDTH};
pub use literal::{Literal, Sign};
pub use maker::{make, Made};
pub use page::{page, Page};
pub use refusal::Refusal;
pub use rule::Rule;
pub use table::check;
pub use test::{test, Tested};
