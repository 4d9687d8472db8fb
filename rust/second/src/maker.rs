//! Makes a book from a table: the general rules, and what each family keeps of them.

use crate::book::Book;
use crate::closure::{conjunction, disjunction, first_open};
use crate::family::Family;
use crate::literal::{Literal, Sign};
use crate::refusal::Refusal;
use crate::rule::Rule;
use crate::table::{Row, Table};

/// What a successful maker tells about the book it wrote.
#[derive(Clone, Copy, Debug, PartialEq, Eq)]
pub struct Made {
    /// Bytes of the book.
    pub length: u64,
    /// Number of its rules.
    pub rules: u64,
}

/// Makes the book of a table in a family and writes it at the beginning of the room.
///
/// Refusals 1 to 8 in order; a refusal leaves the room as it was, and success leaves the bytes
/// beyond the book.
pub fn make(n: u64, l: u64, family: u64, table: &[u8], room: &mut [u8]) -> Result<Made, Refusal> {
    let table = Table::checked(n, l, table)?;
    let family = Family::numbered(family).ok_or(Refusal::NoFamily)?;
    if let Some(rows) = first_open(family, &table.rows) {
        return Err(Refusal::NotClosed { rows });
    }
    let rules: Vec<Rule> = general(&table)
        .into_iter()
        .map(|rule| kept(family, rule, &table.rows))
        .collect();
    let made = rules.len() as u64;
    let bytes = Book::new(table.n, table.l, family, rules).bytes();
    let length = bytes.len() as u64;
    let place = room
        .get_mut(..bytes.len())
        .ok_or(Refusal::BookRoom { length })?;
    place.copy_from_slice(&bytes);
    Ok(Made {
        length,
        rules: made,
    })
}

/// The rules of the general family, in their order.
fn general(table: &Table) -> Vec<Rule> {
    let Table { n, l, ref rows } = *table;
    if rows.is_empty() {
        // No row leaves no gap to describe, yet nothing is permitted: one rule that is never met.
        return vec![Rule::from_iter([])];
    }
    let top = n - 1;
    let mut rules = Vec::new();
    for k in 1..=rows.len() {
        let row = &rows[k - 1];
        for i in fork(rows, k - 1) + 1..=l {
            let value = row[i - 1];
            if value > 0 {
                let left = [Literal::at_least(i - 1, value)];
                rules.push(differs_before(i, row, top).chain(left).collect());
            }
        }
        for i in fork(rows, k) + 1..=l {
            let value = row[i - 1];
            if value < top {
                let right = [Literal::at_most(i - 1, value)];
                rules.push(differs_before(i, row, top).chain(right).collect());
            }
        }
        if let Some(next) = rows.get(k) {
            let i = fork(rows, k);
            let (value, above) = (row[i - 1], next[i - 1]);
            if value + 1 < above {
                let middle = [
                    Literal::at_most(i - 1, value),
                    Literal::at_least(i - 1, above),
                ];
                rules.push(differs_before(i, row, top).chain(middle).collect());
            }
        }
    }
    rules
}

/// The first level, from 1, at which row k and the next differ, rows counted from 1; 0 at both
/// borders of the table.
fn fork(rows: &[Row], k: usize) -> usize {
    if k == 0 || k == rows.len() {
        return 0;
    }
    let pairs = rows[k - 1].iter().zip(&rows[k]);
    1 + pairs.take_while(|(a, b)| a == b).count()
}

/// "Differs from the row" at every level before `level`.
fn differs_before(level: usize, row: &Row, top: u8) -> impl Iterator<Item = Literal> + '_ {
    (0..level - 1).flat_map(move |setting| {
        let value = row[setting];
        let below = (value > 0).then(|| Literal::at_most(setting, value - 1));
        let above = (value < top).then(|| Literal::at_least(setting, value + 1));
        below.into_iter().chain(above)
    })
}

/// What the family keeps of a general rule.
fn kept(family: Family, rule: Rule, rows: &[Row]) -> Rule {
    match family {
        Family::General => rule,
        Family::Horn => with_one(Sign::AtLeast, conjunction, rule, rows),
        Family::DualHorn => with_one(Sign::AtMost, disjunction, rule, rows),
        Family::Bijunctive => without_needless(rule, rows),
    }
}

/// A rule with two or more literals of the scarce sign keeps at most one of them: the first that
/// the joined rows meet which meet no literal of the other sign.
fn with_one(scarce: Sign, joined: fn(&Row, &Row) -> Row, rule: Rule, rows: &[Row]) -> Rule {
    if rule.count(scarce) < 2 {
        return rule;
    }
    let (choice, others): (Vec<Literal>, Vec<Literal>) = rule
        .literals()
        .iter()
        .partition(|literal| literal.sign == scarce);
    let others = Rule::from_iter(others);
    let uncovered = rows.iter().filter(|row| !others.met_by(*row)).copied();
    let one = uncovered
        .reduce(|a, b| joined(&a, &b))
        .and_then(|row| choice.into_iter().find(|literal| literal.holds(&row)));
    others.literals().iter().copied().chain(one).collect()
}

/// Drops, in order, each literal without which every row still meets what is left of the rule.
fn without_needless(rule: Rule, rows: &[Row]) -> Rule {
    rule.literals().iter().fold(rule.clone(), |left, literal| {
        let others = left.literals().iter().filter(|other| *other != literal);
        let without: Rule = others.copied().collect();
        if rows.iter().all(|row| without.met_by(row)) {
            without
        } else {
            left
        }
    })
}
