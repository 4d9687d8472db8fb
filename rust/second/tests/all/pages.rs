//! Pages, against a filter over all prefixes.

use crate::common::*;
use second::{page, Cursor, Page};

/// Made and typed books with their rules.
fn random_books(seed: u64, books_a_size: usize) -> Vec<(u8, usize, Vec<Rule>, Vec<u8>)> {
    let mut chance = Chance::new(seed);
    let mut all = Vec::new();
    for (n, l) in small_sizes() {
        for _ in 0..books_a_size {
            for family in 0..4 {
                let rules = random_rules(&mut chance, n, l, family);
                let book = encode(n, l, family, &rules);
                all.push((n, l, rules, book));
                let table = random_rows(&mut chance, n, l).concat();
                if let Ok(book) = library_book(u64::from(n), l as u64, family, &table) {
                    all.push((n, l, decode(&book), book));
                }
            }
        }
    }
    all
}

fn prefix(cursor: &Cursor) -> &[u8] {
    &cursor.values[..cursor.length as usize]
}

/// What a page has to give: its answer, its cursor and its rows.
fn due(
    rules: &[Rule],
    l: usize,
    visited: &[Vec<u8>],
    given: &[u8],
    fit: usize,
    budget: usize,
) -> (Page, Cursor, Vec<u8>) {
    let mut last = given.to_vec();
    let (mut steps, mut rows) = (0, Vec::new());
    for prefix in visited.iter().filter(|prefix| prefix[..] > *given) {
        if steps == budget || rows.len() == fit * l {
            break;
        }
        steps += 1;
        last = prefix.clone();
        if prefix.len() == l && !dead(rules, prefix) {
            rows.extend(prefix);
        }
    }
    let page = Page {
        rows: (rows.len() / l) as u64,
        steps: steps as u64,
        finished: !visited.iter().any(|prefix| *prefix > last),
    };
    (page, Cursor::at(&last), rows)
}

#[test]
fn pages_from_the_beginning_end_and_give_all_rows() {
    for (n, l, rules, book) in random_books(7, 1) {
        let visits = visited(n, l, &rules).len();
        let all_rows = permitted(n, l, &rules);
        let most = (all_rows.len() + 1) * l;
        let rooms = [l, l + 1, 2 * l, 3 * l - 1, most - l, most, most + 1];
        let budgets = [
            1,
            2,
            3,
            5,
            visits - visits.min(1),
            visits,
            visits + 1,
            65_535,
        ];
        for room_length in rooms.into_iter().filter(|length| *length >= l) {
            for budget in budgets.into_iter().filter(|budget| *budget > 0) {
                let (mut rows, mut steps, mut cursor) = (Vec::new(), 0, Cursor::BEGINNING);
                loop {
                    let mut room = vec![99; room_length];
                    let (answer, reached) = page(&book, cursor, &mut room, budget as u64);
                    let answer = answer.unwrap();
                    let written = answer.rows as usize * l;
                    rows.extend(room[..written].chunks(l).map(<[u8]>::to_vec));
                    assert!(room[written..].iter().all(|byte| *byte == 99));
                    steps += answer.steps as usize;
                    assert!(answer.steps <= budget as u64);
                    if answer.finished {
                        break;
                    }
                    assert!(answer.steps > 0);
                    let full = written + l > room_length;
                    assert!(full || answer.steps == budget as u64);
                    // Without this a page that goes back would be asked for without end.
                    assert!(prefix(&reached) > prefix(&cursor));
                    cursor = reached;
                }
                assert_eq!(rows, all_rows);
                assert_eq!(steps, visits);
            }
        }
    }
}

#[test]
fn small_books_with_all_rooms_and_budgets() {
    for (n, l, rules, book) in random_books(8, 1) {
        let visits = visited(n, l, &rules);
        if visits.len() > 20 {
            continue;
        }
        for room_length in l..(permitted(n, l, &rules).len() + 2) * l {
            for budget in 1..visits.len() + 2 {
                let mut given = vec![];
                loop {
                    let mut room = vec![99; room_length];
                    let answer = page(&book, Cursor::at(&given), &mut room, budget as u64);
                    let fit = room_length / l;
                    let (page, cursor, rows) = due(&rules, l, &visits, &given, fit, budget);
                    assert_eq!(answer, (Ok(page), cursor));
                    assert_eq!(room[..rows.len()], rows);
                    assert!(room[rows.len()..].iter().all(|byte| *byte == 99));
                    if page.finished {
                        break;
                    }
                    given = prefix(&cursor).to_vec();
                }
            }
        }
    }
}

#[test]
fn pages_from_any_cursor() {
    let mut chance = Chance::new(9);
    let (mut unvisited, mut under_dead) = (0, 0);
    for (n, l, rules, book) in random_books(10, 1) {
        let visits = visited(n, l, &rules);
        for given in prefixes(n, l) {
            if !given.is_empty() && !visits.contains(&given) {
                unvisited += 1;
                under_dead += usize::from(dead(&rules, &given[..given.len() - 1]));
            }
            let (most_steps, most_rows) = ([4, 400][chance.below(2)], [3, 300][chance.below(2)]);
            let budget = 1 + chance.below(most_steps);
            let room_length = l + chance.below(most_rows * l);
            let mut room = vec![99; room_length];
            let answer = page(&book, Cursor::at(&given), &mut room, budget as u64);
            let fit = room_length / l;
            let (page, cursor, rows) = due(&rules, l, &visits, &given, fit, budget);
            assert_eq!(answer, (Ok(page), cursor));
            assert_eq!(room[..rows.len()], rows);
            assert!(room[rows.len()..].iter().all(|byte| *byte == 99));
        }
    }
    assert!(unvisited > 100 && under_dead > 100);
}

/// The room is full and the walk is at its end, or the budget is spent there: finished all the
/// same.
#[test]
fn finished_at_the_last_row_and_the_last_step() {
    let book = encode(2, 1, 0, &[]);
    let answer = |room: usize, budget| page(&book, Cursor::BEGINNING, &mut vec![0; room], budget).0;
    let due = |rows, steps, finished| {
        Ok(Page {
            rows,
            steps,
            finished,
        })
    };
    assert_eq!(answer(2, 2), due(2, 2, true));
    assert_eq!(answer(2, 9), due(2, 2, true));
    assert_eq!(answer(9, 2), due(2, 2, true));
    assert_eq!(answer(1, 9), due(1, 1, false));
    assert_eq!(answer(9, 1), due(1, 1, false));
    let (after_all, cursor) = page(&book, Cursor::at(&[1]), &mut [0], 1);
    assert_eq!((after_all, cursor), (due(0, 0, true), Cursor::at(&[1])));
}

/// A late cursor of a book with 64 to the 16 rows: nothing before it is gone through.
#[test]
fn a_late_cursor_of_a_large_book() {
    let book = encode(64, 16, 0, &[]);
    let mut late = [63; 16];
    late[14] = 62;
    late[15] = 60;
    let mut room = vec![99; 16 * 100];
    let (answer, cursor) = page(&book, Cursor::at(&late), &mut room, 65_535);
    let due = Page {
        rows: 67,
        steps: 68,
        finished: true,
    };
    assert_eq!((answer, cursor), (Ok(due), Cursor::at(&[63; 16])));
    let (answer, cursor) = page(&book, Cursor::at(&[31; 9]), &mut room, 65_535);
    let due = Page {
        rows: 100,
        steps: 107,
        finished: false,
    };
    let mut last = [0; 16];
    last[..9].fill(31);
    last[14..].copy_from_slice(&[1, 35]);
    assert_eq!((answer, cursor), (Ok(due), Cursor::at(&last)));
}
