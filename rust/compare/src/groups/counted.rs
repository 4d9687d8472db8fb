//! Groups of tables that are counted out: document 01's, the fullest, all forks, all small ones.

use crate::chance::Chance;
use crate::comparer::Comparer;
use crate::inputs::books::written;
use crate::inputs::combinations;
use crate::inputs::tables::Table;

/// Document 01's bench examples, each made in every family and gone through.
pub fn bench(comparer: &mut Comparer, _: u64) {
    let mut chance = Chance::new(11);
    let tables = [
        Table::t(),
        Table::new(3, 2, []),
        Table::new(2, 1, [0, 1]),
        Table::new(4, 1, [0, 3]),
        Table::new(2, 2, [0, 1, 1, 0]),
        Table::new(2, 3, [0, 0, 1, 0, 1, 0, 1, 0, 0]),
        Table::new(1, 1, [0]),
        Table::new(0, 1, [0]),
        Table::new(65, 1, [0]),
        Table::new(1, 0, [0]),
        Table::new(1, 17, [0; 17]),
    ];
    for table in &tables {
        comparer.check(table);
        for family in 0..=4 {
            if let Some(book) = comparer.make_in_rooms(table, family) {
                comparer.go_through(&book, &mut chance);
            }
        }
    }
    for bound in [3, 4] {
        let book = written(6, 1, 0, &[vec![[0, 0, 3], [0, 1, bound]]]);
        comparer.go_through(&book, &mut chance);
    }
}

/// Tables of up to 512 rows and one more, of few and of many values, in every family.
pub fn full(comparer: &mut Comparer, _: u64) {
    let sizes = [(64, 16), (2, 16), (8, 3), (64, 2), (23, 2), (64, 1)];
    for (n, l) in sizes {
        for rows in [0, 1, 2, 64, 511, 512, 513] {
            let table = Table::counting(n, l, rows);
            comparer.check(&table);
            comparer.make(&table, 4, 65_536);
            for family in 0..=3 {
                // To search all triples of so many rows takes a second, so one size is enough.
                if family != 3 || !(65..=512).contains(&rows) || (n, l) == (8, 3) {
                    comparer.make(&table, family, 65_536);
                }
            }
        }
    }
    spread(comparer);
    full_but_wrong(comparer);
}

/// All 512 rows of eight values of each of three settings: closed for every family.
fn spread(comparer: &mut Comparer) {
    let rows = combinations(8, 3).flatten().map(|value| value * 9);
    let table = Table::new(64, 3, rows.collect::<Vec<u8>>());
    for family in 0..=3 {
        comparer.make(&table, family, 100_000);
    }
}

/// A table of 512 rows with a value too high at any place, or two rows exchanged.
fn full_but_wrong(comparer: &mut Comparer) {
    let mut chance = Chance::new(21);
    let full = Table::counting(63, 16, 512);
    for _ in 0..1_000 {
        let mut table = full.clone();
        let place = chance.place(512 * 16);
        table.bytes[place] = chance.among(&[63, 255]);
        comparer.check(&table);
        let mut table = full.clone();
        let row = chance.place(511) * 16;
        table.bytes[row..row + 32].rotate_left(16);
        comparer.check(&table);
    }
}

/// Two rows that first differ at any level, in any order, in every family.
pub fn forks(comparer: &mut Comparer, _: u64) {
    for n in [2, 3, 64] {
        let top = n as u8 - 1;
        for (level, l) in (1..=16).flat_map(|l| (0..l).map(move |level| (level, l))) {
            for (low, high) in [(0, 1), (0, top), (top - 1, top), (0, 0), (1, 0), (top, 0)] {
                for (after_low, after_high) in [(0, 0), (0, top), (top, 0), (top, top)] {
                    let mut rows = [[after_low; 16], [after_high; 16]];
                    rows.iter_mut().for_each(|row| row[..level].fill(top / 2));
                    (rows[0][level], rows[1][level]) = (low, high);
                    let table = Table::new(n, l as u64, [&rows[0][..l], &rows[1][..l]].concat());
                    comparer.check(&table);
                    for family in 0..=3 {
                        comparer.make(&table, family, 4_000);
                    }
                }
            }
        }
    }
}

/// Every table of the smallest sizes in every family, in rooms that just fit, gone through.
pub fn every(comparer: &mut Comparer, _: u64) {
    let mut chance = Chance::new(12);
    let sizes = [
        (1, 1),
        (1, 3),
        (2, 1),
        (3, 1),
        (6, 1),
        (2, 2),
        (3, 2),
        (2, 3),
    ];
    for (n, l) in sizes {
        for table in all_tables(n, l) {
            comparer.check(&table);
            for family in 0..=3 {
                if let Some(book) = comparer.make_in_rooms(&table, family) {
                    comparer.go_through(&book, &mut chance);
                }
            }
        }
    }
    for table in all_tables(2, 4) {
        for family in 0..=3 {
            comparer.make(&table, family, 1_000);
        }
    }
}

/// Every set of combinations, as a table.
fn all_tables(n: u64, l: u64) -> impl Iterator<Item = Table> {
    let all: Vec<Vec<u8>> = combinations(n, l).collect();
    (0..1u64 << all.len()).map(move |chosen| {
        let rows = all.iter().enumerate();
        let rows = rows.filter(|(number, _)| chosen >> number & 1 == 1);
        let bytes: Vec<u8> = rows.flat_map(|(_, row)| row.clone()).collect();
        Table::new(n, l, bytes)
    })
}
