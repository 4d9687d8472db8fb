//! The limits: the largest tables, books, budgets, and one past each.

use rulebook::Cursor;

use crate::chance::Chance;
use crate::{books, held, tables};

#[test]
fn rows_up_to_512_and_one_more() {
    let mut chance = Chance::new(601);
    for (n, l) in [(64, 16), (2, 16), (64, 2), (3, 6)] {
        for count in [511, 512, 513] {
            let table = tables::bytes(&tables::run(&mut chance, n, l, count));
            held::check(n, l, &table);
            held::make_in_rooms(n, l, 0, &table);
            held::make(n, l, 4, &table, 0);
        }
    }
    held::check(64, 1, &[0; 513]);
    held::check(1, 1, &[0; 70_000]);
}

/// All 512 rows of eight values of each of three settings: closed for every family.
#[test]
fn closed_tables_of_512_rows() {
    let value = |number: usize| (number % 8 * 9) as u8;
    let table: Vec<u8> = (0..512)
        .flat_map(|number| [value(number / 64), value(number / 8), value(number)])
        .collect();
    for family in 0..=3 {
        held::make(64, 3, family, &table, 100_000);
    }
}

#[test]
fn the_largest_general_books() {
    let mut chance = Chance::new(602);
    for (n, l) in [(64, 16), (2, 16), (64, 2)] {
        let mut rows = tables::Rows::new();
        while rows.len() < 512 {
            rows.insert(tables::row(&mut chance, n, l));
        }
        let table = tables::bytes(&rows);
        let needed = held::make(n, l, 0, &table, 0).gives[0];
        held::make(n, l, 0, &table, needed - 1);
        held::make(n, l, 0, &table, needed);
        for family in 1..=3 {
            held::make(n, l, family, &table, needed);
        }
        let book = books::made(n, l, 0, &table);
        held::read(&book);
        held::rule(&book, 7_000);
        held::test(&book, rows.last().unwrap());
        held::page(&book, Cursor::BEGINNING, 100 * l, 65_535);
    }
}

#[test]
fn n_and_l_at_and_past_their_limits() {
    for (n, l) in [
        (64, 16),
        (65, 16),
        (64, 17),
        (0, 1),
        (1, 0),
        (1, 1),
        (256, 16),
        (64, 256),
    ] {
        for table in [vec![], vec![0; 16], vec![0; 17], vec![63; 16], vec![64; 16]] {
            held::check(n, l, &table);
            held::make_in_rooms(n, l, 0, &table);
        }
        held::read(&books::bytes(n, l, 0, &[]));
    }
}

#[test]
fn the_largest_book() {
    let mut chance = Chance::new(603);
    let widest: Vec<books::Literal> = (0..16)
        .flat_map(|setting| [[setting, 0, 30], [setting, 1, 33]])
        .collect();
    let mut book = books::bytes(64, 16, 0, &vec![widest; 24_576]);
    assert_eq!(held::read(&book).gives, [64, 16, 0, 24_576]);
    held::rule(&book, 24_575);
    held::rule(&book, 24_576);
    held::test(&book, &[31; 16]);
    held::test(&book, &tables::row(&mut chance, 64, 16));
    held::page(&book, Cursor::BEGINNING, 160, 1_000);
    // The count in the head, one more than a book may have.
    book[6] += 1;
    held::read(&book);
}

#[test]
fn budgets_and_rooms_at_their_limits() {
    let book = books::bytes(64, 16, 0, &[]);
    for budget in [0, 1, 65_535, 65_536] {
        for room in [0, 15, 16, 31, 32, 65_536 * 16] {
            held::page(&book, Cursor::BEGINNING, room, budget);
        }
    }
}
