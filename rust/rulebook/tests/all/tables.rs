//! Tables to make books of: any rows, rows closed for a family, and damaged tables.

use std::collections::BTreeSet;

use crate::chance::Chance;

pub type Rows = BTreeSet<Vec<u8>>;

/// The bytes of a table.
pub fn bytes(rows: &Rows) -> Vec<u8> {
    rows.iter().flatten().copied().collect()
}

pub fn row(chance: &mut Chance, n: usize, l: usize) -> Vec<u8> {
    (0..l).map(|_| chance.below(n) as u8).collect()
}

/// At most so many rows.
pub fn any(chance: &mut Chance, n: usize, l: usize, most: usize) -> Rows {
    (0..chance.within(0, most))
        .map(|_| row(chance, n, l))
        .collect()
}

/// Exactly so many rows: those that count upwards in steps of one from a drawn row, so that
/// neighbours share prefixes of every length.
pub fn run(chance: &mut Chance, n: usize, l: usize, count: usize) -> Rows {
    let mut row = row(chance, n, l);
    let mut rows = Rows::new();
    while rows.len() < count {
        rows.insert(row.clone());
        for value in row.iter_mut().rev() {
            *value = (*value + 1) % n as u8;
            if *value != 0 {
                break;
            }
        }
    }
    rows
}

/// Rows closed for a family, grown from a few drawn ones; none where they would be above `most`.
pub fn closed(
    chance: &mut Chance,
    (n, l): (usize, usize),
    family: usize,
    seeds: usize,
    most: usize,
) -> Option<Rows> {
    let mut rows: Rows = (0..seeds).map(|_| row(chance, n, l)).collect();
    loop {
        let grown = grown(&rows, family);
        if grown.len() > most {
            return None;
        }
        if grown.len() == rows.len() {
            return Some(rows);
        }
        rows = grown;
    }
}

fn grown(rows: &Rows, family: usize) -> Rows {
    let mut grown = rows.clone();
    for a in rows {
        for b in rows.range(a.clone()..) {
            match family {
                1 => drop(grown.insert(joined(a, b, |a, b| a.min(b)))),
                2 => drop(grown.insert(joined(a, b, |a, b| a.max(b)))),
                3 => grown.extend(rows.range(b.clone()..).map(|c| median(a, b, c))),
                _ => {}
            }
        }
    }
    grown
}

fn joined(a: &[u8], b: &[u8], value: fn(u8, u8) -> u8) -> Vec<u8> {
    a.iter().zip(b).map(|(a, b)| value(*a, *b)).collect()
}

fn median(a: &[u8], b: &[u8], c: &[u8]) -> Vec<u8> {
    let values = a.iter().zip(b).zip(c);
    values
        .map(|((a, b), c)| (*a).min(*b).max((*a).max(*b).min(*c)))
        .collect()
}

/// One change to a table's bytes that a check may or may not see.
pub fn damage(chance: &mut Chance, l: usize, table: &mut Vec<u8>) {
    let place = chance.below(table.len() + 1);
    match chance.below(5) {
        0 => table.truncate(place),
        1 => table.insert(place, chance.byte()),
        2 => table.extend_from_within(..place),
        _ if place == table.len() => table.extend(chance.bytes(l)),
        3 => table[place] = chance.byte(),
        _ => table[place] = table[place].wrapping_add(1),
    }
}
