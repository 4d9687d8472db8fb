//! Pages: whole listings in drawn pages, and single pages from any cursor.

use crate::chance::Chance;
use crate::moving::any_cursor;
use crate::{books, held};

#[test]
fn whole_books_in_pages_of_any_room_and_budget() {
    let mut chance = Chance::new(501);
    for _ in 0..120 {
        let (n, l) = (chance.within(1, 4), chance.within(1, 4));
        let book = books::sound(&mut chance, n, l);
        let rows = chance.among(&[1, 2, 5, 1000]);
        let most = chance.among(&[1, 3, 20, 65_535]);
        held::pages(&book, || {
            (rows * l + chance.below(l), chance.within(1, most))
        });
    }
}

#[test]
fn pages_from_any_cursor() {
    let mut chance = Chance::new(502);
    for _ in 0..4000 {
        let (n, l) = (chance.within(1, 6), chance.within(1, 6));
        let (family, rules) = (chance.below(4), chance.within(0, 6));
        let book = books::typed(&mut chance, n, l, family, rules);
        let cursor = any_cursor(&mut chance, n, l);
        let room = chance.below(6 * l);
        let budget = chance.among(&[0, 1, 2, 7, 50, 65_535, 65_536, usize::MAX]);
        held::page(&book, cursor, room, budget);
    }
}

/// A fault of the book comes before what is wrong with cursor, room and budget, in this order.
#[test]
fn damaged_books() {
    let mut chance = Chance::new(503);
    for _ in 0..2000 {
        let (n, l) = (chance.within(1, 4), chance.within(1, 4));
        let (family, rules) = (chance.below(4), chance.within(0, 4));
        let mut book = books::typed(&mut chance, n, l, family, rules);
        books::damage(&mut chance, &mut book);
        let cursor = any_cursor(&mut chance, n, l);
        let (room, budget) = (chance.below(3 * l), chance.below(30));
        held::page(&book, cursor, room, budget);
    }
}

/// Many settings of many values with rules that leave few prefixes alive, and budgets that end
/// pages anywhere among the dead ones.
#[test]
fn wide_books() {
    let mut chance = Chance::new(504);
    for _ in 0..40 {
        let (n, l) = (chance.within(2, 64), chance.within(8, 16));
        let (family, rules) = (chance.below(4), chance.within(20, 200));
        let book = books::typed(&mut chance, n, l, family, rules);
        let mut cursor = rulebook::Cursor::BEGINNING;
        for _ in 0..10 {
            let (room, budget) = (l * chance.within(1, 50), chance.within(1, 3000));
            cursor = held::page(&book, cursor, room, budget).cursor;
        }
    }
}
