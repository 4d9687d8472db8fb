//! Groups of tables by chance.

use crate::chance::Chance;
use crate::comparer::Comparer;
use crate::inputs::cursors;
use crate::inputs::tables::Table;

/// Room for every book of a small table.
const AMPLE: u64 = 12_000;

/// Small tables by chance in every family, gone through.
pub fn small(comparer: &mut Comparer, times: u64) {
    let mut chance = Chance::new(1);
    for _ in 0..4_000 * times {
        let table = Table::small(&mut chance);
        for family in 0..4 {
            if let Some(book) = comparer.make(&table, family, AMPLE) {
                comparer.go_through(&book, &mut chance);
            }
        }
    }
}

/// Bytes that are seldom a table, and tables with something wrong.
pub fn damaged(comparer: &mut Comparer, times: u64) {
    let mut chance = Chance::new(2);
    for _ in 0..30_000 * times {
        let (n, l) = (chance.pick(6), chance.pick(5));
        let length = chance.pick(13);
        let table = Table::new(n, l, chance.bytes(length, n + 1));
        let (family, room) = (chance.pick(6), chance.pick(80));
        comparer.check(&table);
        comparer.make(&table, family, room);
    }
    for _ in 0..200_000 * times {
        let (n, l) = chance.among(&[(5, 4), (5, 4), (64, 16)]);
        let (n, l) = (chance.within(1, n), chance.within(1, l));
        let rows = chance.within(0, 12);
        let mut table = Table::any(&mut chance, n, l, rows);
        for _ in 0..chance.within(0, 2) {
            table.damage(&mut chance);
        }
        comparer.check(&table);
        let (family, room) = (chance.within(0, 4), chance.pick(600));
        comparer.make(&table, family, room);
    }
}

/// Tables of any size: any rows, closed for every family, closed for one, and with a row taken out.
pub fn closed(comparer: &mut Comparer, times: u64) {
    let mut chance = Chance::new(13);
    for _ in 0..1_000 * times {
        let (n, l) = (chance.within(1, 64), chance.within(1, 16));
        let rows = chance.within(0, 30);
        let table = Table::any(&mut chance, n, l, rows);
        for family in 0..=3 {
            comparer.make_in_rooms(&table, family);
        }
    }
    for _ in 0..1_000 * times {
        let (n, l) = (chance.within(1, 64), chance.within(1, 16));
        let rows = chance.within(0, 30);
        let table = Table::chain(&mut chance, n, l, rows);
        for family in 0..=3 {
            if let Some(book) = comparer.make_in_rooms(&table, family) {
                ask_about(comparer, &table, &book, &mut chance);
            }
        }
    }
    for _ in 0..4_000 * times {
        let family = chance.within(1, 3);
        let (n, widest) = (chance.among(&[2, 3, 4, 9, 64]), chance.among(&[4, 8, 16]));
        let size = (n, chance.within(1, widest));
        if let Some(mut table) = Table::closed(&mut chance, size, family, 40) {
            if let Some(book) = comparer.make_in_rooms(&table, family) {
                ask_about(comparer, &table, &book, &mut chance);
            }
            table.take_out(&mut chance);
            for family in 0..=3 {
                comparer.make_in_rooms(&table, family);
            }
        }
    }
}

/// Tests some rows and combinations beside them, and lists some pages.
fn ask_about(comparer: &mut Comparer, table: &Table, book: &[u8], chance: &mut Chance) {
    let (n, l) = (table.n, table.l);
    for row in table.bytes.chunks(l as usize).step_by(7) {
        let mut beside = row.to_vec();
        beside[chance.place(l as usize)] = chance.byte(n);
        comparer.test(book, row);
        comparer.test(book, &beside);
    }
    let mut cursor = cursors::any(chance, n, l);
    for _ in 0..3 {
        let (rows, budget) = (chance.within(1, 20), chance.within(1, 500));
        (cursor, _) = comparer.page(book, cursor, rows * l, budget);
    }
}

/// Small tables by chance in every room from none to some bytes more than the book needs.
pub fn rooms(comparer: &mut Comparer, times: u64) {
    let mut chance = Chance::new(3);
    for _ in 0..1_000 * times {
        let table = Table::small(&mut chance);
        let family = chance.pick(4);
        if let Some(book) = comparer.make(&table, family, AMPLE) {
            for room in 0..=book.len() as u64 + 7 {
                comparer.make(&table, family, room);
            }
        }
    }
}
