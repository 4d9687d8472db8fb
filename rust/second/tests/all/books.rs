//! Reading books: sound ones, cut ones, damaged ones and noise.

use crate::common::*;
use second::{read, rule, test, Book, Head, Refusal, Tested};

fn random_books(seed: u64, books_a_size: usize) -> Vec<(u8, usize, u64, Vec<Rule>)> {
    let mut chance = Chance::new(seed);
    let mut all = Vec::new();
    for (n, l) in small_sizes().chain([(64, 16), (64, 1), (1, 16), (2, 16)]) {
        for _ in 0..books_a_size {
            let family = chance.below(4) as u64;
            // Long rules of a narrow family are rare enough at full width to be hard to hit.
            let family = if l > 4 { 0 } else { family };
            all.push((n, l, family, random_rules(&mut chance, n, l, family)));
        }
    }
    all
}

#[test]
fn sound_books_are_read_and_written_alike() {
    for (n, l, family, rules) in random_books(11, 20) {
        let bytes = encode(n, l, family, &rules);
        let head = Head {
            n: u64::from(n),
            l: l as u64,
            family,
            rules: rules.len() as u64,
        };
        assert_eq!(read(&bytes), Ok(head));
        let book = Book::read(&bytes).unwrap();
        assert_eq!(book.bytes(), bytes);
        let literals = book.rules().iter().map(|rule| {
            let literals = rule.literals().iter();
            literals
                .map(|literal| (literal.setting, literal.sign.byte(), literal.bound))
                .collect::<Rule>()
        });
        assert_eq!(literals.collect::<Vec<_>>(), rules);
    }
}

#[test]
fn a_rule_is_a_part_of_the_book() {
    for (n, l, family, rules) in random_books(12, 10) {
        let bytes = encode(n, l, family, &rules);
        let places = mark_places(&rules);
        for number in 0..rules.len() {
            let part = rule(&bytes, number as u64);
            assert_eq!(part, places[number]..places[number + 1]);
            assert!(part.len() >= 3);
        }
        let nothing = bytes.len()..bytes.len();
        for number in [rules.len() as u64, rules.len() as u64 + 1, u64::MAX] {
            assert_eq!(rule(&bytes, number), nothing);
        }
        let faulty = [&bytes[..], &[0]].concat();
        assert_eq!(rule(&faulty, 0), faulty.len()..faulty.len());
        assert_eq!(rule(&[], 0), 0..0);
    }
}

#[test]
fn combinations_against_typed_books() {
    for (n, l, family, rules) in random_books(21, 3) {
        if l > 4 {
            continue;
        }
        let book = encode(n, l, family, &rules);
        for combination in combinations(n, l) {
            let first = rules.iter().position(|rule| !met(rule, &combination));
            let due = first.map_or(Tested::Permitted, |rule| Tested::NotMet(rule as u64));
            assert_eq!(test(&book, &combination), Ok(due));
        }
    }
}

/// Every cut names the record it falls into: the head before place 7, then each rule, then the end.
#[test]
fn cut_books() {
    for (n, l, family, rules) in random_books(13, 6) {
        let bytes = encode(n, l, family, &rules);
        let marks = mark_places(&rules);
        for length in 0..bytes.len() {
            let record = marks.iter().copied().rfind(|mark| *mark <= length);
            let place = record.unwrap_or(0) as u64;
            assert_eq!(read(&bytes[..length]), Err(Refusal::CutShort { place }));
        }
        let longer = [&bytes[..], &[0x52, 0x45]].concat();
        let place = bytes.len() as u64;
        assert_eq!(read(&longer), Err(Refusal::AfterEnd { place }));
    }
}

#[test]
fn wrong_marks() {
    for (n, l, family, rules) in random_books(14, 6) {
        let bytes = encode(n, l, family, &rules);
        let mut marks = mark_places(&rules);
        marks.push(0);
        for mark in marks {
            for at in [mark, mark + 1] {
                for wrong in [0x00, 0x42, 0x45, 0x52, 0x55, 0xff] {
                    let mut damaged = bytes.clone();
                    damaged[at] = wrong;
                    if damaged == bytes {
                        continue;
                    }
                    let place = mark as u64;
                    assert_eq!(read(&damaged), Err(Refusal::WrongMark { place }));
                    damaged.truncate(mark + 1);
                    assert_eq!(read(&damaged), Err(Refusal::CutShort { place }));
                }
            }
        }
    }
}

#[test]
fn fields_out_of_range() {
    for (n, l, family, rules) in random_books(15, 6) {
        let bytes = encode(n, l, family, &rules);
        let refused_at = |at: usize, values: &[u8]| {
            for value in values {
                let mut damaged = bytes.clone();
                damaged[at] = *value;
                let place = at as u64;
                assert_eq!(read(&damaged), Err(Refusal::FieldRange { place }));
                // A field that is there in full is judged before what is missing after it.
                damaged.truncate(at + 1);
                assert_eq!(read(&damaged), Err(Refusal::FieldRange { place }));
            }
        };
        refused_at(2, &[0, 65, 255]);
        refused_at(3, &[0, 17, 255]);
        refused_at(4, &[4, 255]);
        for (rule, mark) in rules.iter().zip(mark_places(&rules)) {
            refused_at(mark + 2, &[2 * l as u8 + 1, 255]);
            for (number, (_, sign, _)) in rule.iter().enumerate() {
                let at = mark + 3 + 3 * number;
                refused_at(at, &[l as u8, 255]);
                refused_at(at + 1, &[2, 255]);
                let bounds = if *sign == 0 { [n - 1, n] } else { [0, n] };
                refused_at(at + 2, &bounds);
                refused_at(at + 2, &[255]);
            }
        }
    }
}

#[test]
fn literals_out_of_order() {
    for (n, l, family, rules) in random_books(16, 10) {
        for (number, rule) in rules.iter().enumerate() {
            for second in 1..rule.len() {
                let place = (mark_places(&rules)[number] + 3 + 3 * second) as u64;
                let mut swapped = rules.clone();
                swapped[number].swap(second - 1, second);
                let answer = read(&encode(n, l, family, &swapped));
                assert_eq!(answer, Err(Refusal::LiteralOrder { place }));
                let mut twice = rules.clone();
                twice[number][second] = rule[second - 1];
                let answer = read(&encode(n, l, family, &twice));
                assert_eq!(answer, Err(Refusal::LiteralOrder { place }));
            }
        }
    }
}

/// A general book under another family's number is refused at its first rule outside.
#[test]
fn rules_outside_the_family() {
    let mut refused = [0; 4];
    for (n, l, _, rules) in random_books(17, 20) {
        for family in 1..4 {
            let answer = read(&encode(n, l, family, &rules)).map(|head| head.rules);
            match rules.iter().position(|rule| !in_family(family, rule)) {
                None => assert_eq!(answer, Ok(rules.len() as u64)),
                Some(outside) => {
                    let place = mark_places(&rules)[outside] as u64;
                    assert_eq!(answer, Err(Refusal::OutsideFamily { place }));
                    refused[family as usize] += 1;
                }
            }
        }
    }
    assert!(refused[1..].iter().all(|count| *count > 10));
}

#[test]
fn damaged_books_and_noise() {
    let mut chance = Chance::new(18);
    let mut accepted = 0;
    let mut numbers = [0; 21];
    let mut look = |bytes: &[u8]| match Book::read(bytes) {
        Ok(book) => {
            accepted += 1;
            assert_eq!(book.bytes(), bytes);
            let rules = decode(bytes);
            let family = u64::from(book.family().number());
            assert_eq!(encode(book.n(), book.l(), family, &rules), bytes);
        }
        Err(refusal) => {
            numbers[refusal.number() as usize] += 1;
            let place = refusal.values()[0];
            assert!(place <= bytes.len() as u64);
        }
    };
    for (n, l, family, rules) in random_books(19, 10) {
        let sound = encode(n, l, family, &rules);
        for _ in 0..60 {
            let mut damaged = sound.clone();
            for _ in 0..1 + chance.below(2) {
                let at = chance.below(damaged.len());
                match chance.below(8) {
                    0 => damaged.truncate(at.max(1)),
                    1 => damaged.insert(at, chance.byte()),
                    2 => damaged.push(chance.byte()),
                    3 => damaged[at] = chance.byte(),
                    _ => damaged[at] = damaged[at].wrapping_add(chance.below(3) as u8),
                }
            }
            look(&damaged);
        }
        let noise: Vec<u8> = (0..chance.below(40)).map(|_| chance.byte()).collect();
        look(&noise);
        let mut headed = encode(n, l, family, &rules)[..7].to_vec();
        headed.extend((0..chance.below(40)).map(|_| chance.byte() % 8));
        look(&headed);
    }
    assert!(accepted > 100);
    assert!(numbers[9..=15].iter().all(|count| *count > 0));
    assert!(numbers[..9].iter().chain(&numbers[16..]).all(|c| *c == 0));
}

/// The largest number of rules, and one more.
#[test]
fn number_of_rules_at_its_limit() {
    let rules = vec![vec![]; 24_576];
    let book = encode(2, 1, 3, &rules);
    assert_eq!(read(&book).map(|head| head.rules), Ok(24_576));
    let last = 7 + 3 * 24_575;
    assert_eq!(rule(&book, 24_575), last..last + 3);
    let more = encode(2, 1, 3, &vec![vec![]; 24_577]);
    assert_eq!(read(&more), Err(Refusal::FieldRange { place: 5 }));
}
