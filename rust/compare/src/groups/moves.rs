//! The group that moves cursors.

use second::Cursor;

use crate::chance::Chance;
use crate::comparer::Comparer;
use crate::inputs::{cursors, WIDE};

/// Every small cursor, and any by chance; n and l at their limits, past them, and wide.
pub fn moves(comparer: &mut Comparer, times: u64) {
    small(comparer);
    let mut chance = Chance::new(5);
    for _ in 0..50_000 * times {
        let mut cursor = Cursor::BEGINNING;
        cursor.length = chance.pick(19);
        for (place, value) in (0..).zip(&mut cursor.values) {
            *value = if place < cursor.length {
                chance.byte(5)
            } else {
                u8::from(chance.once_in(40))
            };
        }
        comparer.moves(cursor, chance.pick(7), chance.pick(18));
    }
    let numbers = [0, 1, 2, 5, 15, 16, 17, 63, 64, 65, 255, 256];
    let numbers = [&numbers[..], &WIDE].concat();
    for _ in 0..100_000 * times {
        let (n, l) = (chance.among(&numbers), chance.among(&numbers));
        let cursor = cursors::any(&mut chance, n, l);
        comparer.moves(cursor, n, l);
    }
}

/// Cursors of four small values and every length up to five, whether or not they are clean.
fn small(comparer: &mut Comparer) {
    for n in 0..=3 {
        for l in 0..=3 {
            for mut cursor in cursors::all(3, 4) {
                for length in 0..=5 {
                    cursor.length = length;
                    comparer.moves(cursor, n, l);
                }
            }
        }
    }
}
