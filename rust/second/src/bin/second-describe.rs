//! The printing program: describes on standard output the book of the table on standard input.

use std::io::{self, Read, Write};

fn main() -> io::Result<()> {
    let mut input = Vec::new();
    io::stdin()
        .lock()
        .take(second::MOST_INPUT as u64)
        .read_to_end(&mut input)?;
    io::stdout().write_all(second::describe(&input).as_bytes())
}
