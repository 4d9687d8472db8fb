//! How calls, cursors and bytes are printed.

use std::fmt;

use second::Cursor;

use crate::call::{Call, Kind, Way};

/// Bytes that stand so many times one after another are printed once.
const LEAST: usize = 5;
/// The longest such bytes that are looked for: those of the longest rule.
const LONGEST: usize = 99;
/// Bytes, or repeated bytes, that are printed at most.
const MOST: usize = 4_096;

/// Bytes in hexadecimal; repeated ones once, with how many times: `52 42 00*7 (52 55 00)*9`.
pub struct Bytes<'a>(pub &'a [u8]);

impl fmt::Display for Bytes<'_> {
    fn fmt(&self, out: &mut fmt::Formatter) -> fmt::Result {
        if self.0.is_empty() {
            return out.write_str("(no bytes)");
        }
        let mut rest = self.0;
        for number in 0..MOST {
            if rest.is_empty() {
                return Ok(());
            }
            let space = if number == 0 { "" } else { " " };
            let (length, times) = repeated(rest);
            let bytes = in_hexadecimal(&rest[..length]);
            match (length, times) {
                (_, 1) => write!(out, "{space}{bytes}")?,
                (1, _) => write!(out, "{space}{bytes}*{times}")?,
                _ => write!(out, "{space}({bytes})*{times}")?,
            }
            rest = &rest[length * times..];
        }
        write!(out, " and {} more bytes", rest.len())
    }
}

/// How many bytes at the beginning are repeated, the fewest, and how many times; else one, once.
fn repeated(bytes: &[u8]) -> (usize, usize) {
    (1..=LONGEST.min(bytes.len() / LEAST))
        .map(|length| (length, times(bytes, length)))
        .find(|(_, times)| *times >= LEAST)
        .unwrap_or((1, 1))
}

fn times(bytes: &[u8], length: usize) -> usize {
    let same = |chunk: &&[u8]| **chunk == bytes[..length];
    bytes.chunks(length).take_while(same).count()
}

fn in_hexadecimal(bytes: &[u8]) -> String {
    let bytes: Vec<String> = bytes.iter().map(|byte| format!("{byte:02x}")).collect();
    bytes.join(" ")
}

/// A cursor's length and its values.
pub struct Place<'a>(pub &'a Cursor);

impl fmt::Display for Place<'_> {
    fn fmt(&self, out: &mut fmt::Formatter) -> fmt::Result {
        write!(out, "cursor {} of {}", self.0.length, Bytes(&self.0.values))
    }
}

impl fmt::Display for Kind {
    fn fmt(&self, out: &mut fmt::Formatter) -> fmt::Result {
        out.write_str(match self {
            Kind::Check => "check",
            Kind::Make => "make",
            Kind::Read => "read",
            Kind::Rule => "rule",
            Kind::Test => "test",
            Kind::Move(Way::Down) => "down",
            Kind::Move(Way::Along) => "along",
            Kind::Move(Way::Up) => "up",
            Kind::Page => "page",
        })
    }
}

/// The call by its name and what it is given.
impl fmt::Display for Call {
    fn fmt(&self, out: &mut fmt::Formatter) -> fmt::Result {
        let given = match self {
            Call::Check { n, l, table } => format!("n {n}, l {l}, table {}", Bytes(table)),
            Call::Make {
                n,
                l,
                family,
                table,
                room,
            } => {
                let table = Bytes(table);
                format!("n {n}, l {l}, family {family}, table {table}, room {room}")
            }
            Call::Read { book } => format!("book {}", Bytes(book)),
            Call::Rule { book, number } => format!("book {}, number {number}", Bytes(book)),
            Call::Test { book, combination } => {
                let (book, combination) = (Bytes(book), Bytes(combination));
                format!("book {book}, combination {combination}")
            }
            Call::Move { cursor, n, l, .. } => format!("{}, n {n}, l {l}", Place(cursor)),
            Call::Page {
                book,
                cursor,
                room,
                budget,
            } => {
                let (book, cursor) = (Bytes(book), Place(cursor));
                format!("book {book}, {cursor}, room {room}, budget {budget}")
            }
        };
        write!(out, "{}: {given}", self.kind())
    }
}

#[cfg(test)]
mod tests {
    use super::*;

    #[test]
    fn bytes_and_repeated_bytes() {
        assert_eq!(Bytes(&[]).to_string(), "(no bytes)");
        assert_eq!(Bytes(&[0x52, 0, 0]).to_string(), "52 00 00");
        assert_eq!(Bytes(&[1, 0, 0, 0, 0, 0, 2]).to_string(), "01 00*5 02");
        let rules = [&[7][..], &[0x52, 0x55, 0].repeat(6), &[0x52, 0x45]].concat();
        assert_eq!(Bytes(&rules).to_string(), "07 (52 55 00)*6 52 45");
        let long: Vec<u8> = (0..MOST + 9).map(|place| (place % 251) as u8).collect();
        assert!(Bytes(&long).to_string().ends_with(" and 9 more bytes"));
    }
}
