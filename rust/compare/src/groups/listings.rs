//! Groups that list books page by page.

use second::Cursor;

use crate::chance::Chance;
use crate::comparer::Comparer;
use crate::inputs::books::{base, sound};
use crate::inputs::cursors;

/// Pages from every cursor, visited or not, good or bad, with every small room and budget.
pub fn pages(comparer: &mut Comparer, times: u64) {
    let books = base();
    for book in &books {
        let (n, l) = (u64::from(book[2]), u64::from(book[3]));
        for cursor in cursors::all(n, l + 1) {
            for room in 0..=3 * l + 1 {
                for budget in (0..=13).chain([65_535, 65_536]) {
                    comparer.page(book, cursor, room, budget);
                }
            }
        }
        let mut unclean = Cursor::BEGINNING;
        unclean.values[1] = 1;
        comparer.page(book, unclean, 8, 9);
    }
    let mut chance = Chance::new(16);
    for _ in 0..300_000 * times {
        let (n, l) = chance.among(&[(6, 6), (6, 6), (64, 16)]);
        let (n, l, rules) = (chance.within(1, n), chance.within(1, l), chance.pick(7));
        let book = sound(&mut chance, n, l, rules);
        let cursor = cursors::any(&mut chance, n, l);
        let budget = chance.among(&[0, 1, 2, 7, 50, 65_535, 65_536, u64::MAX]);
        comparer.page(&book, cursor, chance.pick(6 * l), budget);
    }
}

/// Whole listings of small books by chance, with every small room and budget.
pub fn whole(comparer: &mut Comparer, times: u64) {
    let mut chance = Chance::new(17);
    for _ in 0..400 * times {
        let (n, l, rules) = (chance.within(1, 4), chance.within(1, 3), chance.pick(7));
        let book = sound(&mut chance, n, l, rules);
        for room in l..=3 * l {
            for budget in [1, 2, 3, 4, 5, 6, 7, 8, 20, 65_535] {
                comparer.pages(&book, || (room, budget));
            }
        }
    }
}

/// Many settings of many values, rules that leave few prefixes alive, and budgets that end pages
/// anywhere among the dead ones.
pub fn wide(comparer: &mut Comparer, times: u64) {
    let mut chance = Chance::new(18);
    for _ in 0..500 * times {
        let (n, l) = (chance.within(2, 64), chance.within(8, 16));
        let rules = chance.within(20, 200);
        let book = sound(&mut chance, n, l, rules);
        let mut cursor = Cursor::BEGINNING;
        for _ in 0..10 {
            let (rows, budget) = (chance.within(1, 50), chance.within(1, 3_000));
            (cursor, _) = comparer.page(&book, cursor, l * rows, budget);
        }
    }
}
