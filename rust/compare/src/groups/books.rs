//! Groups that read books, ask for their rules and test combinations.

use second::Cursor;

use crate::asking::Page;
use crate::chance::Chance;
use crate::comparer::Comparer;
use crate::inputs::books::{base, damage, loose, sound, written, Literal};
use crate::inputs::{combinations as all_combinations, cursors};

/// Small books cut at every place, with every byte at every place and after the end, and with a
/// byte left out or put in at every place.
pub fn faults(comparer: &mut Comparer, _: u64) {
    let mut books = base();
    books.push(written(
        6,
        3,
        0,
        &[
            vec![[0, 0, 3], [0, 1, 4], [2, 1, 5]],
            vec![],
            vec![[1, 0, 0], [1, 1, 1]],
        ],
    ));
    books.push(written(64, 16, 1, &[vec![[0, 0, 62], [15, 1, 63]], vec![]]));
    for book in books {
        for length in 0..=book.len() {
            faulty(comparer, &book[..length]);
        }
        for place in 0..book.len() {
            for byte in 0..=255 {
                let mut changed = book.clone();
                changed[place] = byte;
                faulty(comparer, &changed);
            }
            let mut shorter = book.clone();
            shorter.remove(place);
            faulty(comparer, &shorter);
        }
        for place in 0..=book.len() {
            for byte in 0..=255 {
                let mut longer = book.clone();
                longer.insert(place, byte);
                faulty(comparer, &longer);
            }
        }
    }
}

/// Every call of a book that may have a fault; where it has none and is small, it is gone through.
fn faulty(comparer: &mut Comparer, book: &[u8]) {
    let l = book.get(3).map_or(0, |l| usize::from(*l).min(16));
    let page = Page {
        cursor: Cursor::BEGINNING,
        room: 8,
        budget: 9,
    };
    if let Some(size) = comparer.each_call(book, &[0; 16][..l], page) {
        if size.n.saturating_pow(size.l as u32) <= 216 {
            comparer.go_through(book, &mut Chance::new(20));
        }
    }
}

/// Larger books by chance with up to three changes; combination and page may be wrong as well.
pub fn damaged(comparer: &mut Comparer, times: u64) {
    let mut chance = Chance::new(14);
    for _ in 0..200_000 * times {
        let (n, widest) = (chance.among(&[1, 2, 3, 6, 64]), chance.among(&[4, 4, 16]));
        let l = chance.within(1, widest);
        let rules = chance.within(0, 6);
        let mut book = sound(&mut chance, n, l, rules);
        for _ in 0..chance.within(0, 3) {
            damage(&mut chance, &mut book);
        }
        let (length, limit) = (
            chance.among(&[l, l, l, 0, l + 1]),
            chance.among(&[n, n, 256]),
        );
        let combination = chance.bytes(length, limit);
        let page = Page {
            cursor: cursors::any(&mut chance, n, l),
            room: chance.pick(4 * l),
            budget: chance.pick(30),
        };
        comparer.each_call(&book, &combination, page);
    }
}

/// Every rule of at most two literals, right or wrong, in every family.
pub fn literals(comparer: &mut Comparer, _: u64) {
    let literal = |number: u8| -> Literal { [number / 15, number / 5 % 3, number % 5] };
    let numbers = 0..3 * 3 * 5u8;
    for family in 0..4 {
        for first in numbers.clone() {
            comparer.read(&written(4, 2, family, &[vec![literal(first)]]));
            for second in numbers.clone() {
                let rule = vec![literal(first), literal(second)];
                let book = written(4, 2, family, &[rule]);
                if comparer.read(&book).is_some() {
                    all_combinations(4, 2)
                        .for_each(|combination| comparer.test(&book, &combination));
                }
            }
        }
    }
}

/// Small books by chance, gone through where they are accepted.
pub fn typed(comparer: &mut Comparer, times: u64) {
    let mut chance = Chance::new(4);
    for _ in 0..15_000 * times {
        let book = loose(&mut chance);
        comparer.go_through(&book, &mut chance);
    }
    for _ in 0..15_000 * times {
        let (n, l, rules) = (chance.within(1, 4), chance.within(1, 3), chance.pick(9));
        let book = sound(&mut chance, n, l, rules);
        comparer.go_through(&book, &mut chance);
    }
}

/// Combinations of any length and values, with small books and with books of any size.
pub fn combinations(comparer: &mut Comparer, times: u64) {
    let mut chance = Chance::new(6);
    let books = base();
    for _ in 0..10_000 * times {
        let book = &books[chance.place(6)];
        let length = chance.pick(5);
        comparer.test(book, &chance.bytes(length, 5));
    }
    for _ in 0..200_000 * times {
        let (n, l, rules) = (chance.within(1, 64), chance.within(1, 16), chance.pick(9));
        let book = sound(&mut chance, n, l, rules);
        let mut combination = chance.bytes(l, n);
        match chance.pick(6) {
            0 => combination.truncate(chance.place(l as usize)),
            1 => combination.push(0),
            2 => combination[chance.place(l as usize)] = chance.byte(256),
            3 => combination[chance.place(l as usize)] = n as u8,
            _ => {}
        }
        comparer.test(&book, &combination);
    }
}

/// Bytes that are no book but for their beginning.
pub fn any_bytes(comparer: &mut Comparer, times: u64) {
    let mut chance = Chance::new(15);
    let head = [0x52, 0x42, 3, 2, 0, 0, 1, 0x52, 0x55];
    for _ in 0..100_000 * times {
        let length = chance.pick(30);
        let limit = chance.among(&[3, 6, 256]);
        let mut bytes = chance.bytes(length, limit);
        let known = bytes.len().min(chance.place(head.len() + 1));
        bytes[..known].copy_from_slice(&head[..known]);
        let page = Page {
            cursor: Cursor::BEGINNING,
            room: 4,
            budget: 9,
        };
        comparer.each_call(&bytes, &[0, 1], page);
    }
}
