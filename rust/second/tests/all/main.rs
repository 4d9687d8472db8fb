//! All tests of the library, one subject a file, held to definitions written anew in `common`.

mod books;
mod common;
mod cursors;
mod examples;
mod made;
mod pages;
mod printing;
mod refusals;
mod slips;
mod totality;
