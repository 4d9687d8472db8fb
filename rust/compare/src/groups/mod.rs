//! The groups of inputs, in the order in which they run.

pub mod books;
pub mod counted;
mod limits;
mod listings;
mod longest;
pub mod moves;
pub mod tables;

use crate::comparer::Comparer;

/// Asks a group's calls, with so many times as many inputs by chance.
pub type Group = fn(&mut Comparer, u64);

/// All groups, by name.
pub const GROUPS: [(&str, Group); 21] = [
    ("bench", counted::bench),
    ("limits", limits::tables),
    ("heads", limits::books),
    ("full", counted::full),
    ("forks", counted::forks),
    ("every", counted::every),
    ("small", tables::small),
    ("tables", tables::damaged),
    ("closed", tables::closed),
    ("rooms", tables::rooms),
    ("faults", books::faults),
    ("damaged", books::damaged),
    ("literals", books::literals),
    ("typed", books::typed),
    ("combinations", books::combinations),
    ("bytes", books::any_bytes),
    ("pages", listings::pages),
    ("listings", listings::whole),
    ("wide", listings::wide),
    ("moves", moves::moves),
    ("longest", longest::longest),
];
