//! The bench examples.

use crate::common::{decode, encode, library_book, text, told};
use second::{check, make, page, read, Cursor, Head, Made, Page, Refusal};

const T: [u8; 6] = [0, 1, 1, 1, 2, 2];

fn rules(n: u64, l: u64, family: u64, table: &[u8]) -> String {
    text(&decode(&library_book(n, l, family, table).unwrap()))
}

#[test]
fn p1_t_general() {
    let due = "[0>=1 1>=1] [0>=1 1<=1] [0<=0 0>=2 1>=1] [0<=0 0>=2 1<=1] [0<=1 1>=2]";
    assert_eq!(rules(3, 2, 0, &T), due);
}

#[test]
fn p2_t_horn() {
    let due = "[1>=1] [0>=1 1<=1] [0<=0 1>=1] [0<=0 0>=2 1<=1] [0<=1 1>=2]";
    assert_eq!(rules(3, 2, 1, &T), due);
}

#[test]
fn p3_t_dual_horn() {
    let due = "[0>=1 1>=1] [0>=1 1<=1] [0<=0 0>=2 1>=1] [0>=2 1<=1] [0<=1 1>=2]";
    assert_eq!(rules(3, 2, 2, &T), due);
}

#[test]
fn p4_t_bijunctive() {
    let due = "[1>=1] [0>=1 1<=1] [1>=1] [0>=2 1<=1] [0<=1 1>=2]";
    assert_eq!(rules(3, 2, 3, &T), due);
}

#[test]
fn p5_the_four_books_listed_whole() {
    for family in 0..4 {
        let book = library_book(3, 2, family, &T).unwrap();
        let mut room = [9; 20];
        let (answer, cursor) = page(&book, Cursor::BEGINNING, &mut room, 65_535);
        let due = Page {
            rows: 3,
            steps: 12,
            finished: true,
        };
        assert_eq!(answer, Ok(due));
        assert_eq!(cursor, Cursor::at(&[2, 2]));
        assert_eq!(room[..6], T);
        assert_eq!(room[6..], [9; 14]);
    }
}

#[test]
fn p6_no_rows() {
    let book = library_book(3, 2, 0, &[]).unwrap();
    let due = [
        0x52, 0x42, 0x03, 0x02, 0x00, 0x00, 0x01, 0x52, 0x55, 0x00, 0x52, 0x45,
    ];
    assert_eq!(book, due);
    let mut room = [9; 2];
    let (answer, cursor) = page(&book, Cursor::BEGINNING, &mut room, 1);
    let due = Page {
        rows: 0,
        steps: 0,
        finished: true,
    };
    assert_eq!((answer, cursor, room), (Ok(due), Cursor::BEGINNING, [9; 2]));
}

#[test]
fn p7_both_of_two_values() {
    let mut room = [9; 9];
    let made = make(2, 1, 0, &[0, 1], &mut room);
    assert_eq!(
        made,
        Ok(Made {
            length: 9,
            rules: 0
        })
    );
    assert_eq!(room, [0x52, 0x42, 2, 1, 0, 0, 0, 0x52, 0x45]);
}

#[test]
fn p8_a_gap_in_one_setting() {
    let mut room = [9; 18];
    let made = make(4, 1, 0, &[0, 3], &mut room);
    assert_eq!(
        made,
        Ok(Made {
            length: 18,
            rules: 1
        })
    );
    assert_eq!(text(&decode(&room)), "[0<=0 0>=3]");
}

#[test]
fn p9_two_crossed_rows() {
    let table = [0, 1, 1, 0];
    for family in [1, 2] {
        let answer = library_book(2, 2, family, &table);
        assert_eq!(told(answer), (7, vec![0, 1]));
    }
    assert_eq!(rules(2, 2, 3, &table), "[0>=1 1>=1] [0<=0 1<=0]");
}

#[test]
fn p10_three_rows_without_their_median() {
    let answer = library_book(2, 3, 3, &[0, 0, 1, 0, 1, 0, 1, 0, 0]);
    assert_eq!(told(answer), (7, vec![0, 1, 2]));
}

#[test]
fn one_value_and_one_setting() {
    for family in 0..4 {
        assert_eq!(rules(1, 1, family, &[0]), "");
    }
}

#[test]
fn limits_of_n_and_l() {
    for (n, l) in [(0, 1), (65, 1), (1, 0), (1, 17)] {
        assert_eq!(check(n, l, &[]), Err(Refusal::Limits));
        assert_eq!(make(n, l, 0, &[], &mut [0; 99]), Err(Refusal::Limits));
    }
    for (n, l) in [(1, 1), (64, 16), (1, 16), (64, 1)] {
        assert_eq!(check(n, l, &[]), Ok(0));
    }
}

#[test]
fn the_512_rows_that_pass_and_the_513_that_do_not() {
    let rows = |count: u16| -> Vec<u8> {
        let values = (0..count).flat_map(|row| [row / 64, row % 64]);
        values.map(|value| value as u8).collect()
    };
    assert_eq!(check(64, 2, &rows(512)), Ok(512));
    assert_eq!(told(check(64, 2, &rows(513))), (3, vec![513]));
    for family in 0..3 {
        assert_eq!(rules(64, 2, family, &rows(512)), "[0<=7]");
        let answer = library_book(64, 2, family, &rows(513));
        assert_eq!(told(answer), (3, vec![513]));
    }
}

#[test]
fn room_one_byte_short() {
    for family in 0..4 {
        let length = library_book(3, 2, family, &T).unwrap().len();
        let mut room = vec![9; length - 1];
        let answer = make(3, 2, family, &T, &mut room);
        assert_eq!(told(answer), (8, vec![length as u64]));
        assert_eq!(room, vec![9; length - 1]);
    }
}

#[test]
fn an_idle_rule_and_one_just_not_idle() {
    let idle = encode(6, 1, 0, &[vec![(0, 0, 3), (0, 1, 3)]]);
    assert_eq!(told(read(&idle)), (13, vec![7]));
    let not_idle = encode(6, 1, 0, &[vec![(0, 0, 3), (0, 1, 4)]]);
    let due = Head {
        n: 6,
        l: 1,
        family: 0,
        rules: 1,
    };
    assert_eq!(read(&not_idle), Ok(due));
}
