//! Moves of cursors: prefixes, and cursors that are none.

use rulebook::Cursor;

use crate::chance::Chance;
use crate::held;

/// A cursor that is more often than not a prefix for n and l.
pub fn any_cursor(chance: &mut Chance, n: usize, l: usize) -> Cursor {
    let mut cursor = Cursor::BEGINNING;
    cursor.len = chance.within(0, l.min(16));
    for value in &mut cursor.values[..cursor.len] {
        *value = chance.below(n.clamp(1, 64)) as u8;
    }
    match chance.below(8) {
        0 => cursor.len = chance.among(&[l + 1, 15, 16, 17, 255, 256, usize::MAX]),
        1 => cursor.values[chance.below(16)] = chance.byte(),
        2 => cursor.values[chance.below(16)] = n as u8,
        _ => {}
    }
    cursor
}

#[test]
fn from_every_small_prefix() {
    for n in 0..=3 {
        for l in 0..=3 {
            for number in 0..4usize.pow(4) {
                let values: Vec<u8> = (0..4)
                    .map(|place| (number >> (2 * place) & 3) as u8)
                    .collect();
                for length in 0..=4 {
                    let mut cursor = Cursor::at(&values).unwrap();
                    cursor.len = length;
                    held::moves(cursor, n, l);
                }
            }
        }
    }
}

#[test]
fn from_any_cursor() {
    let mut chance = Chance::new(401);
    let numbers = [0, 1, 2, 5, 15, 16, 17, 63, 64, 65, 255, 256, usize::MAX];
    for _ in 0..6000 {
        let (n, l) = (chance.among(&numbers), chance.among(&numbers));
        let cursor = any_cursor(&mut chance, n, l.min(20));
        held::moves(cursor, n, l);
    }
}
