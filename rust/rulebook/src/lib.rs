//! Rules from tested rows, proved: a safe Rust face of the rule-book library.
//!
//! A *table* is a set of tested rows, one byte for each setting. From it a *book* of rules is made
//! that a combination meets exactly when it is a row of the table. Books are bytes: they can be
//! stored, read back, asked for their rules, held against a combination, and listed page by page.
//!
//! What runs is an archive written in Rattle, in which each call is proved to answer as the
//! project's definitions say, for any bytes whatever. This crate adds types and no logic of its
//! own: every answer is the archive's.
//!
//! ```
//! use rulebook::{make, Family, Verdict};
//!
//! // Two settings of three values each, and the tested rows 01, 11 and 22.
//! let book = make(3, 2, Family::Horn, &[0, 1, 1, 1, 2, 2])?;
//! let rules: Vec<String> = book.rules().map(|rule| rule.to_string()).collect();
//! assert_eq!(rules, ["1>=1", "0>=1 1<=1", "0<=0 1>=1", "0<=0 0>=2 1<=1", "0<=1 1>=2"]);
//!
//! assert_eq!(book.test(&[1, 1])?, Verdict::Permitted);
//! assert_eq!(book.test(&[2, 1])?, Verdict::NotMet { rule: 4 });
//!
//! let permitted: Vec<_> = book.permitted().collect();
//! assert_eq!(permitted, [[0, 1], [1, 1], [2, 2]]);
//! # Ok::<(), rulebook::Refusal>(())
//! ```

#![deny(unsafe_code)]
#![warn(missing_docs)]

mod book;
mod combination;
mod cursor;
mod family;
mod literal;
mod page;
mod permitted;
mod refusal;
mod rule;
#[allow(unsafe_code)]
pub mod sys;
mod table;

pub use book::{make, make_in, Book, Verdict};
pub use combination::Combination;
pub use cursor::Cursor;
pub use family::Family;
pub use literal::{Literal, Sign};
pub use page::Page;
pub use permitted::Permitted;
pub use refusal::{OpenRows, Refusal};
pub use rule::{Rule, Rules};
pub use table::check;

/// Most values a setting can have.
pub const MOST_VALUES: usize = 64;
/// Most settings a row can have.
pub const MOST_SETTINGS: usize = 16;
/// Most rows a table can have.
pub const MOST_ROWS: usize = 512;
/// Most rules a book can have.
pub const MOST_RULES: usize = 24_576;
/// The largest budget of a page.
pub const MOST_STEPS: usize = 65_535;
