//! Reading books and asking for their rules: sound ones, damaged ones, and bytes that are none.

use crate::chance::Chance;
use crate::{books, held};

/// Reads, and asks for each rule, the next two numbers, and numbers that no book has.
fn read_and_rules(book: &[u8]) {
    let answer = held::read(book);
    let rules = if answer.number == 0 {
        answer.gives[3]
    } else {
        2
    };
    for number in (0..rules + 2).chain([24_576, 65_536, usize::MAX]) {
        held::rule(book, number);
    }
}

#[test]
fn sound_books() {
    let mut chance = Chance::new(201);
    for _ in 0..150 {
        let (n, l) = (chance.within(1, 8), chance.within(1, 5));
        read_and_rules(&books::sound(&mut chance, n, l));
    }
}

#[test]
fn damaged_books() {
    let mut chance = Chance::new(202);
    for _ in 0..4000 {
        let (n, l) = (chance.among(&[1, 2, 3, 6, 64]), chance.within(1, 4));
        let (family, rules) = (chance.below(4), chance.within(0, 5));
        let mut book = books::typed(&mut chance, n, l, family, rules);
        for _ in 0..chance.within(1, 2) {
            books::damage(&mut chance, &mut book);
        }
        held::read(&book);
        held::rule(&book, chance.below(6));
    }
}

#[test]
fn every_cut_and_every_byte_of_one_book() {
    let book = books::bytes(
        6,
        3,
        0,
        &[
            vec![[0, 0, 3], [0, 1, 4], [2, 1, 5]],
            vec![],
            vec![[1, 0, 0], [1, 1, 1]],
        ],
    );
    assert_eq!(held::read(&book).number, 0);
    for length in 0..book.len() {
        held::read(&book[..length]);
    }
    for place in 0..book.len() {
        for byte in 0..=255 {
            let mut changed = book.clone();
            changed[place] = byte;
            held::read(&changed);
        }
    }
}

/// Each literal once, in each order with each other one, in each family.
#[test]
fn every_pair_of_literals() {
    for family in 0..4 {
        for first in 0..3 * 3 * 5u8 {
            for second in 0..3 * 3 * 5u8 {
                let literal = |number: u8| [number / 15, number / 5 % 3, number % 5];
                let rule = vec![literal(first), literal(second)];
                held::read(&books::bytes(4, 2, family, &[rule]));
            }
        }
    }
}

#[test]
fn rules_in_and_outside_each_family() {
    let mut chance = Chance::new(203);
    for _ in 0..1500 {
        let (n, l) = (chance.within(2, 5), chance.within(1, 4));
        let (inside, head) = (chance.below(4), chance.below(4));
        let rules: Vec<_> = (0..3)
            .map(|_| books::rule(&mut chance, n, l, inside, 4))
            .collect();
        held::read(&books::bytes(n, l, head, &rules));
    }
}

#[test]
fn bytes_that_are_no_book() {
    let mut chance = Chance::new(204);
    for _ in 0..1500 {
        let length = chance.below(30);
        let mut bytes = chance.bytes(length);
        if chance.once_in(2) {
            let head = [0x52, 0x42, 3, 2, 0, 0, 1, 0x52, 0x55];
            let known = length.min(chance.below(head.len() + 1));
            bytes[..known].copy_from_slice(&head[..known]);
        }
        held::read(&bytes);
        held::rule(&bytes, 0);
    }
}
