//! Every refusal by its number, with what it gives, and the order in which refusals come.

use crate::common::{encode, told};
use second::{check, make, page, read, test, Cursor, Refusal};

const SOUND: [u8; 9] = [0x52, 0x42, 3, 2, 0, 0, 0, 0x52, 0x45];

fn made(n: u64, l: u64, family: u64, table: &[u8], room: usize) -> (u64, Vec<u64>) {
    let mut lent = vec![9; room];
    let answer = make(n, l, family, table, &mut lent);
    assert!(lent.iter().all(|byte| *byte == 9));
    told(answer)
}

fn paged(book: &[u8], cursor: Cursor, room: usize, budget: u64) -> (u64, Vec<u64>) {
    let mut lent = vec![9; room];
    let (answer, given_back) = page(book, cursor, &mut lent, budget);
    assert_eq!(given_back, cursor);
    assert!(lent.iter().all(|byte| *byte == 9));
    told(answer)
}

#[test]
fn tables() {
    assert_eq!(made(0, 2, 0, &[], 99), (1, vec![]));
    assert_eq!(told(check(3, 2, &[0])), (2, vec![]));
    assert_eq!(made(3, 2, 0, &[0, 1, 1], 99), (2, vec![]));
    assert_eq!(told(check(3, 1, &[0; 513])), (3, vec![513]));
    assert_eq!(made(3, 1, 0, &[0; 600], 99), (3, vec![600]));
    assert_eq!(told(check(3, 2, &[0, 1, 2, 3, 4, 0])), (4, vec![3]));
    assert_eq!(made(3, 2, 0, &[0, 1, 2, 3, 4, 0], 99), (4, vec![3]));
    assert_eq!(told(check(3, 2, &[0, 1, 1, 0, 1, 0, 0, 0])), (5, vec![2]));
    assert_eq!(made(3, 2, 0, &[2, 0, 1, 1], 99), (5, vec![1]));
    assert_eq!(made(3, 2, 4, &[0, 1], 99), (6, vec![]));
    assert_eq!(made(3, 2, u64::MAX, &[0, 1], 99), (6, vec![]));
    assert_eq!(made(2, 2, 1, &[0, 1, 1, 0], 99), (7, vec![0, 1]));
    assert_eq!(made(2, 2, 2, &[0, 1, 1, 0], 99), (7, vec![0, 1]));
    assert_eq!(made(3, 2, 0, &[], 11), (8, vec![12]));
}

/// Pairs and triples that are not the first rows of the table.
#[test]
fn later_rows_not_closed() {
    let pair = [0, 0, 0, 0, 0, 1, 0, 1, 1, 1, 0, 1, 1, 1, 0];
    assert_eq!(made(2, 3, 1, &pair, 99), (7, vec![2, 4]));
    let pair = [0, 0, 0, 0, 0, 1, 0, 1, 0, 1, 1, 1];
    assert_eq!(made(2, 3, 2, &pair, 99), (7, vec![1, 2]));
    let triple = [0, 0, 0, 0, 0, 1, 0, 1, 0, 1, 1, 1];
    assert_eq!(made(2, 3, 3, &triple, 99), (7, vec![1, 2, 3]));
    let triple = [0, 0, 0, 0, 0, 1, 0, 1, 1, 1, 0, 0, 1, 1, 1];
    assert_eq!(made(2, 3, 3, &triple, 99), (7, vec![1, 3, 4]));
}

/// Each table here has the fault under test and all that come after it.
#[test]
fn table_refusals_come_in_order() {
    let long = [9; 1027];
    assert_eq!(made(65, 2, 9, &long, 0), (1, vec![]));
    assert_eq!(made(2, 2, 9, &long, 0), (2, vec![]));
    assert_eq!(made(2, 2, 9, &long[1..], 0), (3, vec![513]));
    assert_eq!(made(2, 2, 9, &[1, 0, 0, 2], 0), (4, vec![3]));
    assert_eq!(made(2, 2, 9, &[1, 0, 0, 1], 0), (5, vec![1]));
    assert_eq!(made(2, 2, 9, &[0, 1, 1, 0], 0), (6, vec![]));
    assert_eq!(made(2, 2, 1, &[0, 1, 1, 0], 0), (7, vec![0, 1]));
    assert_eq!(made(2, 2, 3, &[0, 1, 1, 0], 0), (8, vec![27]));
}

fn refused(book: &[u8]) -> (u64, u64) {
    let (number, values) = told(read(book));
    assert_eq!(values.len(), 1);
    (number, values[0])
}

#[test]
fn books_cut_short() {
    assert_eq!(refused(&[]), (9, 0));
    assert_eq!(refused(&[0x52]), (9, 0));
    assert_eq!(refused(&[0x00]), (9, 0));
    assert_eq!(refused(&SOUND[..2]), (9, 0));
    assert_eq!(refused(&SOUND[..6]), (9, 0));
    assert_eq!(refused(&[0x52, 0x42, 3, 2, 0, 0xff]), (9, 0));
    assert_eq!(refused(&SOUND[..7]), (9, 7));
    assert_eq!(refused(&SOUND[..8]), (9, 7));
    assert_eq!(refused(&[0x52, 0x42, 3, 2, 0, 0, 0, 0x00]), (9, 7));
    let one = encode(3, 2, 0, &[vec![(0, 0, 1)]]);
    for length in 7..13 {
        assert_eq!(refused(&one[..length]), (9, 7));
    }
    for length in 13..15 {
        assert_eq!(refused(&one[..length]), (9, 13));
    }
}

#[test]
fn books_with_wrong_marks() {
    assert_eq!(refused(&[0x52, 0x43]), (10, 0));
    assert_eq!(refused(&[0x42, 0x52, 0, 0]), (10, 0));
    let mut rule_due = SOUND;
    rule_due[6] = 1;
    assert_eq!(refused(&rule_due), (10, 7));
    let mut end_due = encode(3, 2, 0, &[vec![]]);
    end_due[6] = 0;
    assert_eq!(refused(&end_due), (10, 7));
    let mut one_too_many = encode(3, 2, 0, &[vec![], vec![]]);
    one_too_many[6] = 1;
    assert_eq!(refused(&one_too_many), (10, 10));
}

#[test]
fn books_with_fields_out_of_range() {
    for (place, value) in [(2, 0), (2, 65), (3, 0), (3, 17), (4, 4), (5, 0x61)] {
        let mut book = SOUND;
        book[place] = value;
        assert_eq!(refused(&book), (11, place as u64));
    }
    assert_eq!(refused(&[0x52, 0x42, 3, 2, 0, 0x60, 0x01]), (11, 5));
    assert_eq!(refused(&[0x52, 0x42, 3, 2, 0, 0x60, 0x00]), (9, 7));
    assert_eq!(
        refused(&[0x52, 0x42, 3, 2, 0, 0, 1, 0x52, 0x55, 5]),
        (11, 9)
    );
    let literals = [
        ((2, 9, 9), 10),
        ((1, 2, 9), 11),
        ((1, 0, 2), 12),
        ((1, 1, 0), 12),
        ((1, 1, 3), 12),
        ((1, 0, 255), 12),
        ((1, 1, 255), 12),
    ];
    for (literal, place) in literals {
        assert_eq!(refused(&encode(3, 2, 0, &[vec![literal]])), (11, place));
    }
    for literal in [(0, 0, 0), (0, 1, 0), (0, 1, 1)] {
        assert_eq!(refused(&encode(1, 1, 0, &[vec![literal]])), (11, 12));
    }
}

#[test]
fn books_with_faulty_rules() {
    let first = vec![(0, 0, 0)];
    let unordered = vec![(1, 0, 1), (0, 0, 0)];
    assert_eq!(
        refused(&encode(3, 2, 0, &[first.clone(), unordered])),
        (12, 19)
    );
    let signs = vec![(0, 1, 1), (0, 0, 0)];
    assert_eq!(refused(&encode(3, 2, 0, &[signs])), (12, 13));
    let same_sign = vec![(0, 0, 0), (0, 0, 1)];
    assert_eq!(refused(&encode(3, 2, 0, &[same_sign])), (12, 13));
    let idle = vec![(0, 0, 1), (0, 1, 1)];
    assert_eq!(refused(&encode(3, 2, 0, &[first.clone(), idle])), (13, 13));
    let positives = vec![(0, 1, 1), (1, 1, 1)];
    assert_eq!(
        refused(&encode(3, 2, 1, &[first.clone(), positives])),
        (14, 13)
    );
    let negatives = vec![(0, 0, 1), (1, 0, 1)];
    assert_eq!(
        refused(&encode(3, 2, 2, &[first.clone(), negatives])),
        (14, 13)
    );
    let three = vec![(0, 0, 0), (0, 1, 2), (1, 0, 1)];
    assert_eq!(refused(&encode(3, 2, 3, &[first, three])), (14, 13));
    let longer = [&SOUND[..], &[0]].concat();
    assert_eq!(refused(&longer), (15, 9));
}

#[test]
fn book_faults_come_in_order() {
    let bad_bound_and_order = vec![(1, 0, 1), (0, 0, 2)];
    assert_eq!(refused(&encode(3, 2, 0, &[bad_bound_and_order])), (11, 15));
    let order_and_idle = vec![(0, 0, 1), (0, 1, 1), (0, 0, 0)];
    assert_eq!(refused(&encode(3, 2, 0, &[order_and_idle])), (12, 16));
    let idle_and_outside = vec![(0, 0, 1), (0, 1, 1), (1, 1, 1)];
    assert_eq!(
        refused(&encode(3, 2, 1, std::slice::from_ref(&idle_and_outside))),
        (13, 7)
    );
    let mut cut = encode(3, 2, 1, &[idle_and_outside]);
    cut.truncate(18);
    assert_eq!(refused(&cut), (9, 7));
    let outside = vec![(0, 1, 1), (1, 1, 1)];
    let mut without_end = encode(3, 2, 1, &[outside]);
    without_end.truncate(16);
    assert_eq!(refused(&without_end), (14, 7));
}

#[test]
fn combinations() {
    assert_eq!(told(test(&SOUND, &[])), (16, vec![]));
    assert_eq!(told(test(&SOUND, &[0])), (16, vec![]));
    assert_eq!(told(test(&SOUND, &[0, 0, 0])), (16, vec![]));
    assert_eq!(told(test(&SOUND, &[0, 3])), (17, vec![1]));
    assert_eq!(told(test(&SOUND, &[3, 255])), (17, vec![0]));
    assert_eq!(told(test(&SOUND, &[9, 9, 9])), (16, vec![]));
    assert_eq!(told(test(&SOUND[..8], &[9, 9, 9])), (9, vec![7]));
}

#[test]
fn pages() {
    let start = Cursor::BEGINNING;
    let bad = [
        Cursor { length: 3, ..start },
        Cursor {
            length: u64::MAX,
            ..start
        },
        Cursor::at(&[0, 3]),
        Cursor {
            length: 0,
            ..Cursor::at(&[1])
        },
    ];
    for cursor in bad {
        assert_eq!(paged(&SOUND, cursor, 2, 1), (18, vec![]));
        assert_eq!(paged(&SOUND, cursor, 0, 0), (18, vec![]));
        assert_eq!(paged(&SOUND[..8], cursor, 0, 0), (9, vec![7]));
    }
    for budget in [0, 65_536, u64::MAX] {
        assert_eq!(paged(&SOUND, start, 2, budget), (19, vec![]));
        assert_eq!(paged(&SOUND, start, 1, budget), (20, vec![]));
    }
    assert_eq!(paged(&SOUND, start, 1, 1), (20, vec![]));
    assert_eq!(paged(&SOUND, start, 0, 1), (20, vec![]));
    assert!(page(&SOUND, start, &mut [0; 2], 65_535).0.is_ok());
}

/// The numbers 1 to 20, each with as many values as it gives.
#[test]
fn numbers_and_values() {
    let (rows, row, length, place) = (3, 5, 8, 77);
    let all = [
        Refusal::Limits,
        Refusal::TableLength,
        Refusal::TooManyRows { rows },
        Refusal::TableValue { place },
        Refusal::RowOrder { row },
        Refusal::NoFamily,
        Refusal::NotClosed { rows: vec![4, 6] },
        Refusal::BookRoom { length },
        Refusal::CutShort { place },
        Refusal::WrongMark { place },
        Refusal::FieldRange { place },
        Refusal::LiteralOrder { place },
        Refusal::IdleRule { place },
        Refusal::OutsideFamily { place },
        Refusal::AfterEnd { place },
        Refusal::CombinationLength,
        Refusal::CombinationValue { place },
        Refusal::BadCursor,
        Refusal::Budget,
        Refusal::RowRoom,
    ];
    let numbers: Vec<u64> = all.iter().map(Refusal::number).collect();
    assert_eq!(numbers, (1..=20).collect::<Vec<u64>>());
    let text: Vec<String> = all.iter().map(Refusal::to_string).collect();
    assert_eq!(text[0], "refused 1");
    assert_eq!(text[2], "refused 3 3");
    assert_eq!(text[6], "refused 7 4 6");
    assert_eq!(text[16], "refused 17 77");
    for refusal in &all {
        let values = match refusal.number() {
            1 | 2 | 6 | 16 | 18 | 19 | 20 => 0,
            7 => 2,
            _ => 1,
        };
        assert_eq!(refusal.values().len(), values);
    }
}
