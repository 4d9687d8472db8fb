//! The crate, and through it the archive, held to the second program on many inputs.
//!
//! Every call of the library runs on a thread with a stack of 64 KB. The inputs are the same at
//! every run.

mod books;
mod chance;
mod header;
mod held;
mod limits;
mod listing;
mod making;
mod moving;
mod reading;
mod tables;
mod testing;
mod typed;
