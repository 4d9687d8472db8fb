//! Cursors: validity and the three moves, against the list of all prefixes.

use crate::common::{prefixes, small_sizes};
use second::Cursor;

fn bad_cursors(n: u8, l: usize) -> Vec<Cursor> {
    let too_long = Cursor {
        length: l as u64 + 1,
        values: [0; 16],
    };
    let far_too_long = Cursor {
        length: u64::MAX,
        values: [0; 16],
    };
    let mut value_too_large = Cursor::at(&vec![0; l]);
    value_too_large.values[l - 1] = n;
    let mut last_unused = Cursor::BEGINNING;
    last_unused.values[15] = 1;
    let mut first_unused = Cursor::at(&vec![0; l - 1]);
    first_unused.values[l - 1] = 1;
    vec![
        too_long,
        far_too_long,
        value_too_large,
        last_unused,
        first_unused,
    ]
}

#[test]
fn moves_of_every_prefix() {
    for (n, l) in small_sizes() {
        let (wide_n, wide_l) = (u64::from(n), l as u64);
        let all = prefixes(n, l);
        for prefix in &all {
            let cursor = Cursor::at(prefix);
            assert!(cursor.valid(wide_n, wide_l));
            let moved_or_same = |target: Option<Vec<u8>>| match target {
                Some(target) if all.contains(&target) => Cursor::at(&target),
                _ => cursor,
            };
            let below = [&prefix[..], &[0]].concat();
            assert_eq!(cursor.down(wide_n, wide_l), moved_or_same(Some(below)));
            let next = prefix.split_last().map(|(last, before)| {
                let mut next = before.to_vec();
                next.push(last + 1);
                next
            });
            assert_eq!(cursor.along(wide_n, wide_l), moved_or_same(next));
            let shorter = prefix.split_last().map(|(_, before)| before.to_vec());
            assert_eq!(cursor.up(wide_n, wide_l), moved_or_same(shorter));
        }
    }
}

#[test]
fn a_bad_cursor_stays() {
    for (n, l) in small_sizes() {
        let (n, l, wide) = (u64::from(n), l as u64, (n, l));
        for cursor in bad_cursors(wide.0, wide.1) {
            assert!(!cursor.valid(n, l));
            let moved = [cursor.down(n, l), cursor.along(n, l), cursor.up(n, l)];
            assert_eq!(moved, [cursor; 3]);
        }
    }
}

#[test]
fn outside_the_limits_a_cursor_stays() {
    let outside = [
        (0, 4),
        (65, 4),
        (u64::MAX, 4),
        (4, 0),
        (4, 17),
        (4, u64::MAX),
        (u64::MAX, u64::MAX),
    ];
    for (n, l) in outside {
        for cursor in [Cursor::BEGINNING, Cursor::at(&[0]), Cursor::at(&[1, 2])] {
            assert!(!cursor.valid(n, l));
            let moved = [cursor.down(n, l), cursor.along(n, l), cursor.up(n, l)];
            assert_eq!(moved, [cursor; 3]);
        }
    }
}

#[test]
fn moves_at_full_width() {
    let last = Cursor::at(&[63; 16]);
    assert_eq!(last.down(64, 16), last);
    assert_eq!(last.along(64, 16), last);
    assert_eq!(last.up(64, 16), Cursor::at(&[63; 15]));
    assert_eq!(Cursor::at(&[63; 15]).down(64, 16).values[15], 0);
    assert_eq!(Cursor::at(&[62]).along(64, 16), Cursor::at(&[63]));
}
