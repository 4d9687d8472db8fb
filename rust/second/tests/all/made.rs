//! Made books: what they permit, when they are given, and which rules they have.

use crate::common::*;
use second::{check, make, read, Head, Refusal, Tested};

type Rows = Vec<Vec<u8>>;

fn joined(family: u64, rows: &[&Vec<u8>]) -> Vec<u8> {
    (0..rows[0].len())
        .map(|setting| {
            let mut values: Vec<u8> = rows.iter().map(|row| row[setting]).collect();
            values.sort();
            match family {
                1 => values[0],
                2 => values[values.len() - 1],
                _ => values[1],
            }
        })
        .collect()
}

/// The first row numbers whose result is no row.
fn first_open(family: u64, rows: &Rows) -> Option<Vec<u64>> {
    let count = rows.len();
    for i in 0..count {
        for j in i + 1..count {
            if family < 3 {
                if !rows.contains(&joined(family, &[&rows[i], &rows[j]])) {
                    return Some(vec![i as u64, j as u64]);
                }
                continue;
            }
            for k in j + 1..count {
                if !rows.contains(&joined(family, &[&rows[i], &rows[j], &rows[k]])) {
                    return Some(vec![i as u64, j as u64, k as u64]);
                }
            }
        }
    }
    None
}

/// The rows with all that closes them under the family's operation.
fn closed(family: u64, mut rows: Rows) -> Rows {
    while let Some(open) = first_open(family, &rows) {
        let named: Vec<&Vec<u8>> = open.iter().map(|row| &rows[*row as usize]).collect();
        let missing = joined(family, &named);
        rows.push(missing);
        rows.sort();
    }
    rows
}

/// Random tables with a family: as they come, and closed.
fn random_tables(seed: u64, tables_a_size: usize) -> Vec<(u8, usize, u64, Rows)> {
    let mut chance = Chance::new(seed);
    let mut all = Vec::new();
    for (n, l) in small_sizes() {
        for _ in 0..tables_a_size {
            let rows = random_rows(&mut chance, n, l);
            let rows = thinned(&mut chance, rows, 16);
            // Few rows, for they become many when closed.
            let few = thinned(&mut chance, combinations(n, l), 4);
            all.push((n, l, 0, rows.clone()));
            for family in 1..4 {
                all.push((n, l, family, rows.clone()));
                all.push((n, l, family, closed(family, few.clone())));
            }
        }
        let whole = combinations(n, l);
        if whole.len() <= 16 {
            all.extend((0..4).map(|family| (n, l, family, whole.clone())));
        }
    }
    all
}

#[test]
fn a_book_is_given_exactly_for_closed_rows_and_permits_exactly_them() {
    let (mut given, mut refused) = ([0; 4], [0; 4]);
    for (n, l, family, rows) in random_tables(2, 10) {
        let (wide_n, wide_l, table) = (u64::from(n), l as u64, rows.concat());
        assert_eq!(check(wide_n, wide_l, &table), Ok(rows.len() as u64));
        let mut room = vec![9; 30_000];
        let answer = make(wide_n, wide_l, family, &table, &mut room);
        let open = (family > 0).then(|| first_open(family, &rows)).flatten();
        if let Some(open) = open {
            assert_eq!(answer, Err(Refusal::NotClosed { rows: open }));
            assert!(room.iter().all(|byte| *byte == 9));
            refused[family as usize] += 1;
            continue;
        }
        given[family as usize] += 1;
        let made = answer.unwrap();
        let (book, beyond) = room.split_at(made.length as usize);
        assert!(beyond.iter().all(|byte| *byte == 9));
        let head = Head {
            n: wide_n,
            l: wide_l,
            family,
            rules: made.rules,
        };
        assert_eq!(read(book), Ok(head));
        let rules = decode(book);
        assert_eq!(encode(n, l, family, &rules), book);
        assert!(rules.iter().all(|rule| in_family(family, rule)));
        assert_eq!(permitted(n, l, &rules), rows);
        for combination in combinations(n, l).iter().step_by(7) {
            let first = rules.iter().position(|rule| !met(rule, combination));
            let due = first.map_or(Tested::Permitted, |rule| Tested::NotMet(rule as u64));
            assert_eq!(second::test(book, combination), Ok(due));
        }
        let mut exact = vec![0; book.len()];
        assert_eq!(
            make(wide_n, wide_l, family, &table, &mut exact[..]),
            Ok(made)
        );
        assert_eq!(exact, book);
        let mut short = vec![9; book.len() - 1];
        let answer = make(wide_n, wide_l, family, &table, &mut short);
        let length = made.length;
        assert_eq!(answer, Err(Refusal::BookRoom { length }));
        assert!(short.iter().all(|byte| *byte == 9));
    }
    assert!(given.iter().all(|count| *count > 50));
    assert!(refused[1..].iter().all(|count| *count > 20));
}

/// The general rules describe gaps that do not overlap, so a combination that is no row misses
/// exactly one rule.
#[test]
fn no_two_general_rules_shut_out_the_same_combination() {
    for (n, l, family, rows) in random_tables(3, 8) {
        if family != 0 {
            continue;
        }
        let book = library_book(u64::from(n), l as u64, 0, &rows.concat()).unwrap();
        let rules = decode(&book);
        for combination in combinations(n, l) {
            let missed = rules.iter().filter(|rule| !met(rule, &combination)).count();
            assert_eq!(missed, usize::from(!rows.contains(&combination)));
        }
    }
}

/// The general rules again, by asking of each row, level by level, whether it is the first or the
/// last row below its prefix and which row comes next there.
#[test]
fn the_general_rules_in_their_order() {
    for (n, l, _, rows) in random_tables(4, 6) {
        if rows.is_empty() {
            continue;
        }
        let mut due: Vec<Rule> = Vec::new();
        for row in &rows {
            let differs = |levels: usize| -> Rule {
                (0..levels)
                    .flat_map(|setting| {
                        let (at, value) = (setting as u8, i16::from(row[setting]));
                        [(at, 0, value - 1), (at, 1, value + 1)]
                    })
                    .filter(|literal| (0..i16::from(n)).contains(&literal.2))
                    .map(|(setting, sign, bound)| (setting, sign, bound as u8))
                    .collect()
            };
            let below = |setting: usize| {
                let rows = rows.iter();
                rows.filter(move |other| other[..setting] == row[..setting])
            };
            for setting in 0..l {
                let first = below(setting).next() == Some(row);
                if first && row[setting] > 0 {
                    let mut rule = differs(setting);
                    rule.push((setting as u8, 1, row[setting]));
                    due.push(rule);
                }
            }
            for setting in 0..l {
                let last = below(setting).next_back() == Some(row);
                if last && row[setting] < n - 1 {
                    let mut rule = differs(setting);
                    rule.push((setting as u8, 0, row[setting]));
                    due.push(rule);
                }
            }
            for setting in 0..l {
                let last_here = below(setting + 1).next_back() == Some(row);
                let next = below(setting).find(|other| other[setting] > row[setting]);
                if let (true, Some(next)) = (last_here, next) {
                    if next[setting] > row[setting] + 1 {
                        let mut rule = differs(setting);
                        rule.push((setting as u8, 0, row[setting]));
                        rule.push((setting as u8, 1, next[setting]));
                        due.push(rule);
                    }
                }
            }
        }
        let book = library_book(u64::from(n), l as u64, 0, &rows.concat()).unwrap();
        assert_eq!(text(&decode(&book)), text(&due));
    }
}

/// The kept literal is the first of its sign with which every row meets what is kept.
#[test]
fn what_horn_and_dual_horn_keep() {
    let mut shortened = [0; 2];
    for (n, l, family, rows) in random_tables(5, 8) {
        let scarce = match family {
            1 => 1,
            2 => 0,
            _ => continue,
        };
        let (n, l, table) = (u64::from(n), l as u64, rows.concat());
        let Ok(book) = library_book(n, l, family, &table) else {
            continue;
        };
        let general = decode(&library_book(n, l, 0, &table).unwrap());
        let restricted = decode(&book);
        assert_eq!(general.len(), restricted.len());
        for (whole, kept) in general.iter().zip(&restricted) {
            let choice: Rule = whole.iter().copied().filter(|l| l.1 == scarce).collect();
            if choice.len() < 2 {
                assert_eq!(whole, kept);
                continue;
            }
            shortened[usize::from(scarce)] += 1;
            let others: Rule = whole.iter().copied().filter(|l| l.1 != scarce).collect();
            let enough = |rule: &Rule| rows.iter().all(|row| met(rule, row));
            let with_one = choice.iter().map(|one| {
                let mut rule = others.clone();
                rule.push(*one);
                rule.sort();
                rule
            });
            let due = [others.clone()].into_iter().chain(with_one).find(enough);
            assert_eq!(due.as_ref(), Some(kept));
        }
    }
    assert!(shortened.iter().all(|count| *count > 50));
}

/// A literal stays exactly if some row meets it and none of the later ones nor of those kept.
#[test]
fn what_bijunctive_keeps() {
    let mut shortened = 0;
    for (n, l, family, rows) in random_tables(6, 8) {
        let (n, l, table) = (u64::from(n), l as u64, rows.concat());
        if family != 3 || rows.is_empty() {
            continue;
        }
        let Ok(book) = library_book(n, l, 3, &table) else {
            continue;
        };
        let general = decode(&library_book(n, l, 0, &table).unwrap());
        let restricted = decode(&book);
        assert_eq!(general.len(), restricted.len());
        for (whole, kept) in general.iter().zip(&restricted) {
            let mut due = Rule::new();
            for (number, literal) in whole.iter().enumerate() {
                let essential = rows.iter().any(|row| {
                    met(&[*literal], row) && !met(&due, row) && !met(&whole[number + 1..], row)
                });
                if essential {
                    due.push(*literal);
                }
            }
            assert_eq!(&due, kept);
            shortened += usize::from(whole != kept);
        }
    }
    assert!(shortened > 50);
}
