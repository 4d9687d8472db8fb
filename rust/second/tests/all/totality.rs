//! Every call answers for the widest numbers and the oddest bytes.

use crate::common::Chance;
use second::{check, describe, make, page, read, rule, test, Cursor};

const NUMBERS: [u64; 12] = [0, 1, 2, 3, 16, 17, 64, 65, 255, 256, 1 << 32, u64::MAX];

#[test]
fn any_numbers() {
    let book = [0x52, 0x42, 3, 2, 0, 0, 0, 0x52, 0x45];
    let table = [0, 1, 1, 1, 2, 2];
    for first in NUMBERS {
        assert_eq!(rule(&book, first), 9..9);
        for second in NUMBERS {
            let _ = check(first, second, &table);
            for third in NUMBERS {
                let _ = make(first, second, third, &table, &mut [0; 50]);
            }
            let cursor = Cursor {
                length: first,
                values: [0; 16],
            };
            let (answer, _) = page(&book, cursor, &mut [0; 4], second);
            assert_eq!(answer.is_ok(), first <= 2 && (1..=65_535).contains(&second));
            for third in NUMBERS {
                cursor.down(second, third);
                cursor.along(second, third);
                cursor.up(second, third);
            }
        }
    }
}

#[test]
fn any_bytes() {
    let mut chance = Chance::new(20);
    for _ in 0..3_000 {
        let limit = [2, 5, 256][chance.below(3)];
        let mut bytes: Vec<u8> = (0..chance.below(40))
            .map(|_| chance.below(limit) as u8)
            .collect();
        let _ = describe(&bytes);
        let _ = test(&bytes, &bytes);
        let _ = read(&bytes);
        let (n, l) = (chance.below(70) as u64, chance.below(20) as u64);
        let _ = check(n, l, &bytes);
        let mut values = [0; 16];
        for value in values.iter_mut().take(chance.below(17)) {
            *value = chance.below(limit) as u8;
        }
        let cursor = Cursor {
            length: chance.below(18) as u64,
            values,
        };
        let moved = [cursor.down(n, l), cursor.along(n, l), cursor.up(n, l)];
        if !cursor.valid(n, l) {
            assert_eq!(moved, [cursor; 3]);
        }
        let book = [0x52, 0x42, 64, 16, 0, 0, 0, 0x52, 0x45];
        let (answer, reached) = page(&book, cursor, &mut bytes, chance.below(50) as u64);
        assert!(answer.is_ok() || reached == cursor);
    }
}
