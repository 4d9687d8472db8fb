//! Checking tables and making books of them.

use crate::chance::Chance;
use crate::{held, tables};

/// Every set of combinations, as a table.
fn all_tables(n: usize, l: usize) -> impl Iterator<Item = Vec<u8>> {
    let combinations = n.pow(l as u32);
    (0..1usize << combinations).map(move |chosen| {
        (0..combinations)
            .filter(|number| chosen >> number & 1 == 1)
            .flat_map(|number| {
                (0..l)
                    .rev()
                    .map(move |place| (number / n.pow(place as u32) % n) as u8)
            })
            .collect()
    })
}

#[test]
fn every_small_table_in_every_family() {
    for (n, l) in [(1, 1), (1, 3), (2, 1), (3, 1), (5, 1), (2, 2), (2, 3)] {
        for table in all_tables(n, l) {
            held::check(n, l, &table);
            for family in 0..=4 {
                held::make_in_rooms(n, l, family, &table);
            }
        }
    }
}

#[test]
fn tables_of_any_rows() {
    let mut chance = Chance::new(101);
    for _ in 0..300 {
        let (n, l) = (chance.within(1, 64), chance.within(1, 16));
        let table = tables::bytes(&tables::any(&mut chance, n, l, 30));
        held::check(n, l, &table);
        held::make_in_rooms(n, l, 0, &table);
        held::make_in_rooms(n, l, chance.within(1, 3), &table);
    }
}

#[test]
fn tables_closed_for_their_family() {
    let mut chance = Chance::new(102);
    let mut made = 0;
    while made < 200 {
        let family = chance.within(1, 3);
        let n = chance.among(&[2, 3, 4, 9, 64]);
        let (l, seeds) = (chance.within(1, 7), chance.within(1, 4));
        if let Some(rows) = tables::closed(&mut chance, (n, l), family, seeds, 60) {
            held::make_in_rooms(n, l, family, &tables::bytes(&rows));
            made += 1;
        }
    }
}

#[test]
fn closed_tables_with_a_row_taken_out() {
    let mut chance = Chance::new(103);
    let mut made = 0;
    while made < 200 {
        let (family, n) = (chance.within(1, 3), chance.within(2, 6));
        let (l, seeds) = (chance.within(2, 6), chance.within(3, 5));
        if let Some(mut rows) = tables::closed(&mut chance, (n, l), family, seeds, 60) {
            let taken = rows.iter().nth(chance.below(rows.len())).unwrap().clone();
            rows.remove(&taken);
            for family in 1..=3 {
                held::make_in_rooms(n, l, family, &tables::bytes(&rows));
            }
            made += 1;
        }
    }
}

#[test]
fn damaged_tables() {
    let mut chance = Chance::new(104);
    for _ in 0..2000 {
        let (n, l) = (chance.within(1, 5), chance.within(1, 4));
        let mut table = tables::bytes(&tables::any(&mut chance, n, l, 12));
        tables::damage(&mut chance, l, &mut table);
        held::check(n, l, &table);
        let (family, room) = (chance.within(0, 4), chance.below(600));
        held::make(n, l, family, &table, room);
    }
}

/// Several things wrong at once: the first refusal of the order is the answer.
#[test]
fn refusals_in_order() {
    let mut chance = Chance::new(105);
    let numbers = [
        0,
        1,
        2,
        3,
        16,
        17,
        64,
        65,
        255,
        256,
        257,
        1 << 32,
        usize::MAX,
    ];
    for _ in 0..2000 {
        let (n, l) = (chance.among(&numbers), chance.among(&numbers));
        let length = chance.below(40);
        let mut table = chance.bytes(length);
        if chance.once_in(2) {
            table.iter_mut().for_each(|value| *value %= 4);
        }
        if chance.once_in(2) {
            table.sort();
        }
        held::check(n, l, &table);
        let family = chance.among(&[0, 1, 2, 3, 4, 256, usize::MAX]);
        let room = chance.among(&[0, 8, 9, 12, 500]);
        held::make(n, l, family, &table, room);
    }
}
