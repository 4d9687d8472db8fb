//! Testing combinations against books.

use crate::chance::Chance;
use crate::{books, held, tables};

#[test]
fn every_combination_of_small_books() {
    let mut chance = Chance::new(301);
    for _ in 0..60 {
        let (n, l) = (chance.within(1, 4), chance.within(1, 3));
        let book = books::sound(&mut chance, n, l);
        for number in 0..n.pow(l as u32) {
            let combination: Vec<u8> = (0..l as u32)
                .map(|place| (number / n.pow(place) % n) as u8)
                .collect();
            held::test(&book, &combination);
        }
    }
}

#[test]
fn combinations_of_any_length_and_values() {
    let mut chance = Chance::new(302);
    for _ in 0..2000 {
        let (n, l) = (chance.within(1, 64), chance.within(1, 16));
        let book = typed(&mut chance, n, l);
        let mut combination = tables::row(&mut chance, n, l);
        match chance.below(5) {
            0 => combination.truncate(chance.below(l)),
            1 => combination.push(0),
            2 => combination[chance.below(l)] = chance.byte(),
            _ => {}
        }
        held::test(&book, &combination);
    }
}

fn typed(chance: &mut Chance, n: usize, l: usize) -> Vec<u8> {
    let (family, rules) = (chance.below(4), chance.within(0, 8));
    books::typed(chance, n, l, family, rules)
}

/// A fault of the book comes before what is wrong with the combination.
#[test]
fn damaged_books() {
    let mut chance = Chance::new(303);
    for _ in 0..2000 {
        let (n, l) = (chance.within(1, 5), chance.within(1, 4));
        let mut book = typed(&mut chance, n, l);
        books::damage(&mut chance, &mut book);
        let length = chance.among(&[l, l, l, 0, l + 1]);
        let values = chance.among(&[n, n, 256]);
        held::test(&book, &tables::row(&mut chance, values, length));
    }
}
