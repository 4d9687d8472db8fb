//! The crate's types over the calls: every one says what the second program says.

use rulebook::{check, make, make_in, Book, Cursor, Family, Literal, Refusal, Sign, Verdict};

use crate::chance::Chance;
use crate::held::on_small_stack;
use crate::{books, tables};

/// A refusal of either program by number and values.
fn plain(refusal: Refusal) -> (u64, Vec<u64>) {
    let gives = refusal.gives().into_iter().map(|given| given as u64);
    (refusal.number() as u64, gives.collect())
}

fn due(refusal: second::Refusal) -> (u64, Vec<u64>) {
    (refusal.number(), refusal.values())
}

#[test]
fn check_and_make() {
    let mut chance = Chance::new(701);
    for _ in 0..1500 {
        let (n, l) = (chance.within(0, 5), chance.within(0, 4));
        let mut table = tables::bytes(&tables::any(&mut chance, n.max(1), l.max(1), 6));
        if chance.once_in(4) {
            tables::damage(&mut chance, l, &mut table);
        }
        let family = chance.among(&Family::ALL);
        let mut short = vec![0; chance.below(200)];
        let (checked, made, put) = on_small_stack(|| {
            (
                check(n, l, &table),
                make(n, l, family, &table),
                make_in(n, l, family, &table, &mut short).map(|book| book.view().to_string()),
            )
        });
        let (n, l, number) = (n as u64, l as u64, family.number() as u64);
        let checked = checked.map(|rows| rows as u64);
        assert_eq!(
            checked.map_err(plain),
            second::check(n, l, &table).map_err(due)
        );

        let mut room = vec![0; 5_000];
        let expected = second::make(n, l, number, &table, &mut room).map_err(due);
        let expected = expected.map(|made| room[..made.length as usize].to_vec());
        if let Ok(book) = &made {
            assert_eq!(Book::read(book.as_bytes()), Ok(book.view()));
        }
        let text = made.as_ref().map(Book::to_string).ok();
        assert_eq!(made.map(Book::into_bytes).map_err(plain), expected);
        match put {
            Ok(put) => assert_eq!(Some(put), text),
            Err(Refusal::Room { needed }) => {
                assert_eq!(Ok(needed), expected.map(|book| book.len()))
            }
            Err(refusal) => assert_eq!(Err(plain(refusal)), expected),
        }
    }
}

/// The room that `make` takes is enough for the longest books: rules of every kind, all literals.
#[test]
fn make_takes_room_enough() {
    let mut chance = Chance::new(702);
    for (n, l) in [(64, 16), (64, 1), (3, 16), (64, 5)] {
        for count in [0, 1, 2, 60] {
            let rows: tables::Rows = (0..count)
                .map(|_| {
                    tables::row(&mut chance, n - 2, l)
                        .iter()
                        .map(|value| value + 1)
                        .collect()
                })
                .collect();
            let table = tables::bytes(&rows);
            let book = on_small_stack(|| make(n, l, Family::General, &table)).unwrap();
            assert_eq!(book.as_bytes(), books::made(n, l, 0, &table));
        }
    }
}

/// The second program's literal in this crate's words.
fn worded(literal: &second::Literal) -> Literal {
    Literal {
        setting: usize::from(literal.setting),
        sign: match literal.sign {
            second::Sign::AtMost => Sign::AtMost,
            second::Sign::AtLeast => Sign::AtLeast,
        },
        bound: literal.bound,
    }
}

#[test]
fn what_a_book_says() {
    let mut chance = Chance::new(703);
    for _ in 0..400 {
        let (n, l) = (chance.within(1, 64), chance.within(1, 5));
        let bytes = books::sound(&mut chance, n, l);
        let expected = second::Book::read(&bytes).unwrap();
        on_small_stack(|| {
            let book = Book::read(&bytes).unwrap();
            assert_eq!((book.n(), book.l()), (n, l));
            assert_eq!(book.family().number(), usize::from(bytes[4]));
            assert_eq!(book.as_bytes(), bytes);
            assert_eq!(book.rules().len(), expected.rules().len());
            for (number, (rule, expected)) in book.rules().zip(expected.rules()).enumerate() {
                assert!(rule.literals().eq(expected.literals().iter().map(worded)));
                assert_eq!(book.rule(number), Some(rule));
                let words: Vec<String> =
                    expected.literals().iter().map(|x| x.to_string()).collect();
                assert_eq!(rule.to_string(), words.join(" "));
            }
            assert_eq!(book.rule(book.rules().len()), None);
        });
    }
}

#[test]
fn what_damaged_bytes_say() {
    let mut chance = Chance::new(704);
    for _ in 0..1500 {
        let (n, l) = (chance.within(1, 5), chance.within(1, 4));
        let mut bytes = books::sound(&mut chance, n, l);
        books::damage(&mut chance, &mut bytes);
        let read = on_small_stack(|| Book::read(&bytes).map(|book| book.rules().len() as u64));
        let expected = second::read(&bytes).map(|head| head.rules);
        assert_eq!(read.map_err(plain), expected.map_err(due));
    }
}

#[test]
fn printed_books_are_what_describe_prints() {
    let mut chance = Chance::new(705);
    for _ in 0..300 {
        let (n, l) = (chance.within(1, 5), chance.within(1, 4));
        let rows = tables::any(&mut chance, n, l, 6);
        let mut input = vec![n as u8, l as u8, 0];
        input.extend(tables::bytes(&rows));
        let book = on_small_stack(|| make(n, l, Family::General, &input[3..])).unwrap();
        assert_eq!(format!("{book}\n"), second::describe(&input));
    }
}

#[test]
fn tests_and_pages() {
    let mut chance = Chance::new(706);
    for _ in 0..1500 {
        let (n, l) = (chance.within(1, 5), chance.within(1, 4));
        let bytes = books::sound(&mut chance, n, l);
        let length = chance.among(&[l, l, l, l + 1]);
        let combination = tables::row(&mut chance, n + 1, length);
        let cursor = crate::moving::any_cursor(&mut chance, n, l);
        let (room, budget) = (vec![7; chance.below(5 * l)], chance.below(40));
        let (tested, paged, written) = on_small_stack(|| {
            let book = Book::read(&bytes).unwrap();
            let mut room = room.clone();
            let paged = book.page(cursor, &mut room, budget);
            (book.test(&combination), paged, room)
        });
        let expected = second::test(&bytes, &combination).map(|tested| match tested {
            second::Tested::Permitted => Verdict::Permitted,
            second::Tested::NotMet(rule) => Verdict::NotMet {
                rule: rule as usize,
            },
        });
        assert_eq!(tested.map_err(plain), expected.map_err(due));

        let mut due_room = room.clone();
        let from = second::Cursor {
            length: cursor.len as u64,
            values: cursor.values,
        };
        let (expected, reached) = second::page(&bytes, from, &mut due_room, budget as u64);
        let expected = expected.map(|page| (page.rows, page.steps, page.finished, reached.values));
        let paged = paged.map(|page| {
            let (rows, steps) = (page.rows as u64, page.steps as u64);
            (rows, steps, page.finished, page.cursor.values)
        });
        assert_eq!(paged.map_err(plain), expected.map_err(due));
        assert_eq!(written, due_room);
    }
}

/// All combinations that a book permits by the second program's test.
fn permitted(bytes: &[u8], n: usize, l: usize) -> Vec<Vec<u8>> {
    let all = (0..n.pow(l as u32)).map(|number| {
        let places = (0..l as u32).rev();
        places
            .map(|place| (number / n.pow(place) % n) as u8)
            .collect()
    });
    all.filter(|combination: &Vec<u8>| {
        second::test(bytes, combination) == Ok(second::Tested::Permitted)
    })
    .collect()
}

#[test]
fn the_iterator_hands_out_every_permitted_combination() {
    let mut chance = Chance::new(707);
    for _ in 0..80 {
        let (n, l) = (chance.within(1, 4), chance.within(1, 4));
        let bytes = books::sound(&mut chance, n, l);
        let listed: Vec<Vec<u8>> = on_small_stack(|| {
            let book = Book::read(&bytes).unwrap();
            let listed = book.permitted().map(|combination| combination.to_vec());
            listed.collect()
        });
        assert_eq!(listed, permitted(&bytes, n, l));
    }
}

/// More rows than a page's room, and more steps between rows than a page's budget.
#[test]
fn the_iterator_turns_pages() {
    let full = books::bytes(20, 3, 0, &[]);
    let book = Book::read(&full).unwrap();
    assert!(book
        .permitted()
        .map(|combination| combination.to_vec())
        .eq(permitted(&full, 20, 3)));
    assert_eq!(on_small_stack(|| book.permitted().count()), 8_000);

    let last = vec![
        vec![[0, 1, 63]],
        vec![[1, 1, 63]],
        vec![[2, 1, 63], [3, 1, 63]],
    ];
    let sparse = Book::read(books::bytes(64, 4, 0, &last)).unwrap();
    let first = on_small_stack(|| sparse.permitted().next()).unwrap();
    assert_eq!(first, [63, 63, 0, 63]);
    assert_eq!(sparse.permitted().count(), 63 + 64);
}

#[test]
fn cursors_of_prefixes() {
    assert_eq!(Cursor::at(&[1, 2]).unwrap().prefix(), [1, 2]);
    assert_eq!(Cursor::at(&[]), Some(Cursor::BEGINNING));
    assert!(Cursor::at(&[0; 16]).is_some());
    assert_eq!(Cursor::at(&[0; 17]), None);
}
