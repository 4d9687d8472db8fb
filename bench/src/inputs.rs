//! The tables and the book that are measured.

use std::collections::BTreeSet;

use rulebook::Family;

use crate::chance::Chance;

type Rows = BTreeSet<Vec<u8>>;

/// A table and the family that its book is made in.
pub struct Table {
    pub name: &'static str,
    pub n: usize,
    pub l: usize,
    pub family: Family,
    pub bytes: Vec<u8>,
}

impl Table {
    fn new(name: &'static str, n: usize, l: usize, family: Family, rows: Rows) -> Table {
        assert!(rows.len() <= rulebook::MOST_ROWS);
        let bytes = rows.into_iter().flatten().collect();
        Table {
            name,
            n,
            l,
            family,
            bytes,
        }
    }

    pub fn rows(&self) -> usize {
        self.bytes.len() / self.l
    }
}

pub fn tables() -> Vec<Table> {
    let horn = closed_under_minimum(8, 12);
    let dual = horn.iter().map(|row| mirrored(row, 8)).collect();
    vec![
        Table::new("general, n 64 l 16", 64, 16, Family::General, drawn(64, 16)),
        Table::new("general, n 2 l 16", 2, 16, Family::General, drawn(2, 16)),
        Table::new("Horn, n 8 l 12", 8, 12, Family::Horn, horn),
        Table::new("dual Horn, n 8 l 12", 8, 12, Family::DualHorn, dual),
        Table::new(
            "bijunctive, n 16 l 12",
            16,
            12,
            Family::Bijunctive,
            chains(),
        ),
    ]
}

/// 512 rows of any values.
fn drawn(n: usize, l: usize) -> Rows {
    let mut chance = Chance::new(1);
    let mut rows = Rows::new();
    while rows.len() < rulebook::MOST_ROWS {
        rows.insert(row(&mut chance, n, l));
    }
    rows
}

fn row(chance: &mut Chance, n: usize, l: usize) -> Vec<u8> {
    (0..l).map(|_| chance.below(n) as u8).collect()
}

/// The minima of all subsets of nine drawn rows, at most 511 of them.
fn closed_under_minimum(n: usize, l: usize) -> Rows {
    let mut chance = Chance::new(2);
    let mut rows = Rows::new();
    for _ in 0..9 {
        let new = row(&mut chance, n, l);
        let minima: Vec<Vec<u8>> = rows.iter().map(|old| minimum(old, &new)).collect();
        rows.extend(minima);
        rows.insert(new);
    }
    rows
}

fn minimum(a: &[u8], b: &[u8]) -> Vec<u8> {
    a.iter().zip(b).map(|(a, b)| *a.min(b)).collect()
}

fn mirrored(row: &[u8], n: usize) -> Vec<u8> {
    row.iter().map(|value| (n - 1) as u8 - value).collect()
}

/// Three groups of four settings. Each group goes through a chain of seven points, two of its
/// settings upwards and two downwards, so that the median of three points is the middle one; all
/// 343 choices of a point for each group are rows.
fn chains() -> Rows {
    let point =
        |step: usize| [2 * step, step + 3, 14 - 2 * step, 9 - step].map(|value| value as u8);
    (0..7 * 7 * 7)
        .map(|choice| {
            [choice / 49, choice / 7 % 7, choice % 7]
                .map(point)
                .concat()
        })
        .collect()
}

/// A book of few rules that permits hundreds of thousands of combinations: n 10, l 6.
pub fn typed() -> Vec<u8> {
    let rules: [&[[u8; 3]]; 6] = [
        &[[0, 0, 4], [1, 1, 3]],
        &[[1, 0, 6], [2, 0, 6]],
        &[[2, 1, 2], [3, 0, 7]],
        &[[3, 1, 1], [4, 1, 1], [5, 0, 8]],
        &[[0, 1, 1], [5, 1, 1]],
        &[[0, 0, 8], [2, 0, 2], [4, 1, 5]],
    ];
    let mut book = vec![0x52, 0x42, 10, 6, 0, 0, rules.len() as u8];
    for rule in rules {
        book.extend([0x52, 0x55, rule.len() as u8]);
        book.extend(rule.iter().flatten());
    }
    book.extend([0x52, 0x45]);
    book
}
