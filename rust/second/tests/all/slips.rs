//! The slips the bench has met, each as a test that a right program passes.

use crate::common::*;
use second::{page, read, Cursor};

/// "At least 0" and "at most n-1" never stand in a made rule, and a typed one is refused.
#[test]
fn no_literal_that_always_holds() {
    let mut chance = Chance::new(1);
    for (n, l) in small_sizes() {
        for family in 0..4 {
            let table = random_rows(&mut chance, n, l).concat();
            let Ok(book) = library_book(u64::from(n), l as u64, family, &table) else {
                continue;
            };
            for (_, sign, bound) in decode(&book).concat() {
                assert!(if sign == 0 { bound < n - 1 } else { bound > 0 });
            }
        }
        let always = [(0, 1, 0), (0, 0, n - 1)];
        for literal in always {
            let book = encode(n, l, 0, &[vec![literal]]);
            assert_eq!(told(read(&book)), (11, vec![12]));
        }
    }
}

/// No rows give one rule without literals, in every family.
#[test]
fn no_rows_are_not_no_rules() {
    for (n, l) in small_sizes() {
        for family in 0..4 {
            let book = library_book(u64::from(n), l as u64, family, &[]).unwrap();
            assert_eq!(book, encode(n, l, family, &[vec![]]));
        }
    }
}

/// The kept literal is the first that the minimum (maximum) meets, not the first.
#[test]
fn the_first_literal_met_is_kept() {
    let table = [0, 1, 1, 1, 2, 2];
    let general = decode(&library_book(3, 2, 0, &table).unwrap());
    let horn = decode(&library_book(3, 2, 1, &table).unwrap());
    assert_eq!(text(&general[..1]), "[0>=1 1>=1]");
    assert_eq!(text(&horn[..1]), "[1>=1]");
    let dual = decode(&library_book(3, 2, 2, &table).unwrap());
    assert_eq!(text(&general[3..4]), "[0<=0 0>=2 1<=1]");
    assert_eq!(text(&dual[3..4]), "[0>=2 1<=1]");
}

/// Of two interchangeable literals one goes and the other stays.
#[test]
fn one_of_two_interchangeable_literals_stays() {
    let table = [0, 0, 0, 1, 1, 1];
    let general = decode(&library_book(2, 3, 0, &table).unwrap());
    let bijunctive = decode(&library_book(2, 3, 3, &table).unwrap());
    assert_eq!(text(&general[1..2]), "[0>=1 1>=1 2<=0]");
    assert_eq!(text(&bijunctive[1..2]), "[1>=1 2<=0]");
}

/// Dead prefixes between rows are steps too, each by itself.
#[test]
fn dead_prefixes_are_steps() {
    let book = library_book(3, 2, 0, &[0, 1, 1, 1, 2, 2]).unwrap();
    let due: [(&[u8], u64); 12] = [
        (&[0], 0),
        (&[0, 0], 0),
        (&[0, 1], 1),
        (&[0, 2], 0),
        (&[1], 0),
        (&[1, 0], 0),
        (&[1, 1], 1),
        (&[1, 2], 0),
        (&[2], 0),
        (&[2, 0], 0),
        (&[2, 1], 0),
        (&[2, 2], 1),
    ];
    let mut cursor = Cursor::BEGINNING;
    for (number, (prefix, rows)) in due.into_iter().enumerate() {
        let (answer, reached) = page(&book, cursor, &mut [0; 2], 1);
        let answer = answer.unwrap();
        assert_eq!((answer.rows, answer.steps), (rows, 1));
        assert_eq!(answer.finished, number == 11);
        assert_eq!(reached, Cursor::at(prefix));
        cursor = reached;
    }
    let dead_inside = encode(3, 2, 0, &[vec![(0, 0, 0), (0, 1, 2)]]);
    let (answer, _) = page(&dead_inside, Cursor::BEGINNING, &mut [0; 100], 100);
    let answer = answer.unwrap();
    assert_eq!((answer.rows, answer.steps, answer.finished), (6, 9, true));
}
