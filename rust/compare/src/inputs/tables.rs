//! Tables: counted, drawn by chance, closed for a family, and damaged.

use std::collections::BTreeSet;

use super::{combinations, digits};
use crate::chance::Chance;

/// A table with its n and l, sound or not.
#[derive(Clone)]
pub struct Table {
    pub n: u64,
    pub l: u64,
    pub bytes: Vec<u8>,
}

impl Table {
    /// A table of any bytes.
    pub fn new(n: u64, l: u64, bytes: impl Into<Vec<u8>>) -> Table {
        let bytes = bytes.into();
        Table { n, l, bytes }
    }

    /// Document 01's table T: the rows 01, 11, 22.
    pub fn t() -> Table {
        Table::new(3, 2, [0, 1, 1, 1, 2, 2])
    }

    /// The table whose rows are the numbers below `rows`, each as its last l digits in base n.
    pub fn counting(n: u64, l: u64, rows: u64) -> Table {
        Table::new(
            n,
            l,
            (0..rows)
                .flat_map(|row| digits(row, n, l))
                .collect::<Vec<u8>>(),
        )
    }

    /// A small table by chance.
    pub fn small(chance: &mut Chance) -> Table {
        let (n, l) = (1 + chance.pick(4), 1 + chance.pick(3));
        let share = 1 + chance.pick(4);
        let rows = combinations(n, l).filter(|_| chance.pick(5) < share);
        Table::new(n, l, rows.flatten().collect::<Vec<u8>>())
    }

    /// A table of at most so many rows by chance, of which many begin alike.
    pub fn any(chance: &mut Chance, n: u64, l: u64, rows: u64) -> Table {
        let mut row = chance.bytes(l, n);
        let mut table = Rows::new();
        for _ in 0..rows {
            let alike = chance.pick(l);
            row.truncate(alike as usize);
            row.extend(chance.bytes(l - alike, n));
            table.insert(row.clone());
        }
        Table::of(n, l, &table)
    }

    /// A table closed for a family, grown from a few rows; none where it would have above `most`.
    pub fn closed(
        chance: &mut Chance,
        (n, l): (u64, u64),
        family: u64,
        most: usize,
    ) -> Option<Table> {
        let seeds = chance.within(1, 5);
        let mut rows: Rows = (0..seeds).map(|_| chance.bytes(l, n)).collect();
        loop {
            let grown = grown(&rows, family, most)?;
            if grown.len() == rows.len() {
                return Some(Table::of(n, l, &rows));
            }
            rows = grown;
        }
    }

    /// A table of at most so many rows by chance, none of them lower than the one before at any
    /// setting: closed for every family.
    pub fn chain(chance: &mut Chance, n: u64, l: u64, rows: u64) -> Table {
        let mut row = chance.bytes(l, n.min(3));
        let mut table = Rows::new();
        for _ in 0..rows {
            table.insert(row.clone());
            let risen = chance.place(l as usize);
            let most = (n - u64::from(row[risen])).min(3);
            row[risen] += chance.byte(most);
        }
        Table::of(n, l, &table)
    }

    fn of(n: u64, l: u64, rows: &Rows) -> Table {
        Table::new(n, l, rows.iter().flatten().copied().collect::<Vec<u8>>())
    }

    /// Takes a row out, where there is one.
    pub fn take_out(&mut self, chance: &mut Chance) {
        let l = self.l as usize;
        let rows = self.bytes.len() / l;
        if rows > 0 {
            let start = chance.place(rows) * l;
            self.bytes.drain(start..start + l);
        }
    }

    /// One change that a check may or may not see.
    pub fn damage(&mut self, chance: &mut Chance) {
        let bytes = &mut self.bytes;
        let place = chance.place(bytes.len() + 1);
        let rows = (bytes.len() as u64).checked_div(self.l).unwrap_or(0);
        match chance.pick(7) {
            0 => bytes.truncate(place),
            1 => bytes.insert(place, chance.byte(256)),
            2 => bytes.extend_from_within(..place),
            3 if rows > 1 => {
                let row = (chance.pick(rows - 1) * self.l) as usize;
                bytes[row..row + 2 * self.l as usize].rotate_left(self.l as usize);
            }
            _ if place == bytes.len() => bytes.extend(chance.bytes(self.l, 256)),
            4 => bytes[place] = chance.byte(256),
            5 => bytes[place] = self.n as u8,
            _ => bytes[place] = bytes[place].wrapping_add(1),
        }
    }
}

type Rows = BTreeSet<Vec<u8>>;

/// The rows and what the family's operation gives of any of them; none where above `most`.
fn grown(rows: &Rows, family: u64, most: usize) -> Option<Rows> {
    let mut grown = rows.clone();
    for a in rows {
        for b in rows.range(a.clone()..) {
            if grown.len() > most {
                return None;
            }
            match family {
                1 => drop(grown.insert(joined(a, b, u8::min))),
                2 => drop(grown.insert(joined(a, b, u8::max))),
                3 => grown.extend(rows.range(b.clone()..).map(|c| median(a, b, c))),
                _ => {}
            }
        }
    }
    (grown.len() <= most).then_some(grown)
}

fn joined(a: &[u8], b: &[u8], value: fn(u8, u8) -> u8) -> Vec<u8> {
    a.iter().zip(b).map(|(a, b)| value(*a, *b)).collect()
}

fn median(a: &[u8], b: &[u8], c: &[u8]) -> Vec<u8> {
    let (low, high) = (joined(a, b, u8::min), joined(a, b, u8::max));
    joined(&low, &joined(&high, c, u8::min), u8::max)
}
