//! Groups at the limits of the numbers: at each, one past it, and wide ones.

use second::Cursor;

use crate::comparer::Comparer;
use crate::inputs::books::{base, written};
use crate::inputs::tables::Table;
use crate::inputs::WIDE;

/// n, l, family and length of a table.
pub fn tables(comparer: &mut Comparer, _: u64) {
    for n in with_wide(&[0, 1, 2, 63, 64, 65, 255, 256]) {
        for l in with_wide(&[0, 1, 2, 15, 16, 17, 255, 256]) {
            for length in [0, 1, 2, 16, 17, 32, 512, 513, 8_192, 8_208, 8_721, 70_000] {
                for byte in [0, 63, 64] {
                    around(comparer, &Table::new(n, l, vec![byte; length]));
                }
            }
        }
    }
}

fn around(comparer: &mut Comparer, table: &Table) {
    comparer.check(table);
    for family in [0, 1, 2, 3, 4, 256, 1 << 32, u64::MAX] {
        comparer.make(table, family, 64);
    }
}

/// n, l, family and number of rules of a head; numbers of rules; rooms and budgets of pages.
pub fn books(comparer: &mut Comparer, _: u64) {
    for n in 0..=255 {
        for l in 0..=255 {
            comparer.read(&written(n, l, 0, &[]));
        }
    }
    for count in 0..=u16::MAX {
        let mut book = written(2, 1, 0, &[]);
        book[5..7].copy_from_slice(&count.to_be_bytes());
        comparer.read(&book);
    }
    for book in base() {
        for number in with_wide(&[0, 1, 4, 5, 24_575, 24_576, 65_535, 65_536]) {
            comparer.rule(&book, number);
        }
    }
    for (n, l) in [(1, 1), (2, 2), (64, 16)] {
        let book = written(n, l, 0, &[]);
        for budget in with_wide(&[0, 1, 2, 65_534, 65_535, 65_536]) {
            for room in [0, l - 1, l, l + 1, 2 * l - 1, 2 * l, 65_536 * l] {
                comparer.page(&book, Cursor::BEGINNING, room, budget);
            }
        }
    }
}

fn with_wide(numbers: &[u64]) -> Vec<u64> {
    [numbers, &WIDE].concat()
}
