//! The group of the longest books: most rows, most rules, most literals.

use second::Cursor;

use crate::asking::Page;
use crate::chance::Chance;
use crate::comparer::Comparer;
use crate::inputs::books::{written, Literal};
use crate::inputs::tables::Table;

/// Most rules a book can have.
const MOST_RULES: usize = 24_576;

/// Books of 512 rows, and books of 24,576 rules.
pub fn longest(comparer: &mut Comparer, _: u64) {
    let mut chance = Chance::new(19);
    for (n, l) in [(64, 16), (2, 16), (64, 2), (3, 6)] {
        let table = rows_by_chance(&mut chance, n, l);
        comparer.check(&table);
        for family in 1..=3 {
            comparer.make(&table, family, 1 << 20);
        }
        if let Some(book) = comparer.make_in_rooms(&table, 0) {
            let last = &table.bytes[table.bytes.len() - l as usize..];
            ask_about(comparer, &book, last);
        }
    }
    let table = Table::chain(&mut chance, 64, 16, 800);
    let table = Table::new(64, 16, &table.bytes[..512 * 16]);
    for family in 0..=3 {
        comparer.make(&table, family, 1 << 20);
    }
    let widest: Vec<Literal> = (0..16)
        .flat_map(|setting| [[setting, 0, 30], [setting, 1, 33]])
        .collect();
    for rule in [vec![], widest] {
        let book = written(64, 16, 0, &vec![rule; MOST_RULES]);
        ask_about(comparer, &book, &[31; 16]);
    }
}

/// A table of 512 rows.
fn rows_by_chance(chance: &mut Chance, n: u64, l: u64) -> Table {
    let mut more = 512;
    loop {
        let mut table = Table::any(chance, n, l, more);
        if table.bytes.len() as u64 >= 512 * l {
            table.bytes.truncate(512 * l as usize);
            return table;
        }
        more += 64;
    }
}

/// Every call that takes a book: as it is, with one rule more in the head, cut, and with a byte
/// after its end.
fn ask_about(comparer: &mut Comparer, book: &[u8], combination: &[u8]) {
    let l = u64::from(book[3]);
    comparer.test(book, combination);
    comparer.page(book, Cursor::BEGINNING, 100 * l, 65_535);
    comparer.page(book, Cursor::at(combination), l, 100);
    for number in [0, 1, 7_000, 24_575, 24_576, u64::MAX] {
        comparer.rule(book, number);
    }
    let mut more = book.to_vec();
    more[5..7].copy_from_slice(&[0x60, 1]);
    for book in [
        book,
        &more,
        &book[..book.len() - 1],
        &book[..book.len() / 2],
        &[book, &[0]].concat(),
    ] {
        let page = Page {
            cursor: Cursor::BEGINNING,
            room: 10 * l,
            budget: 1_000,
        };
        comparer.each_call(book, combination, page);
    }
}
