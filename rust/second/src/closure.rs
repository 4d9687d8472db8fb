//! Conjunction, disjunction and median of rows, and the first rows not closed under them.

use std::collections::HashSet;

use crate::family::Family;
use crate::table::Row;

/// The minimum at each setting.
pub(crate) fn conjunction(a: &Row, b: &Row) -> Row {
    std::array::from_fn(|setting| a[setting].min(b[setting]))
}

/// The maximum at each setting.
pub(crate) fn disjunction(a: &Row, b: &Row) -> Row {
    std::array::from_fn(|setting| a[setting].max(b[setting]))
}

/// The middle of three at each setting.
fn median(a: &Row, b: &Row, c: &Row) -> Row {
    std::array::from_fn(|setting| {
        let (a, b, c) = (a[setting], b[setting], c[setting]);
        c.clamp(a.min(b), a.max(b))
    })
}

/// The first row numbers, ascending and compared in order, whose result is no row.
///
/// A row taken twice gives itself or a row already named, so distinct rows are enough.
pub(crate) fn first_open(family: Family, rows: &[Row]) -> Option<Vec<u64>> {
    match family {
        Family::General => None,
        Family::Horn => first_open_pair(rows, conjunction),
        Family::DualHorn => first_open_pair(rows, disjunction),
        Family::Bijunctive => first_open_triple(rows),
    }
}

fn first_open_pair(rows: &[Row], joined: fn(&Row, &Row) -> Row) -> Option<Vec<u64>> {
    let known: HashSet<&Row> = rows.iter().collect();
    let count = rows.len();
    (0..count)
        .flat_map(|i| (i + 1..count).map(move |j| [i, j]))
        .find(|&[i, j]| !known.contains(&joined(&rows[i], &rows[j])))
        .map(numbers)
}

fn first_open_triple(rows: &[Row]) -> Option<Vec<u64>> {
    let known: HashSet<&Row> = rows.iter().collect();
    let count = rows.len();
    (0..count)
        .flat_map(|i| (i + 1..count).map(move |j| (i, j)))
        .flat_map(|(i, j)| (j + 1..count).map(move |k| [i, j, k]))
        .find(|&[i, j, k]| !known.contains(&median(&rows[i], &rows[j], &rows[k])))
        .map(numbers)
}

fn numbers<const COUNT: usize>(rows: [usize; COUNT]) -> Vec<u64> {
    rows.map(|row| row as u64).to_vec()
}
