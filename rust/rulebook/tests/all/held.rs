//! Each call held to the second program: the same answer, and the same bytes in the room.

use rulebook::sys::{self, Answer, PageAnswer, Part};
use rulebook::Cursor;
use second::Refusal;
use std::thread;

/// Runs something on a thread with a stack of 64 KB.
pub fn on_small_stack<T: Send>(run: impl FnOnce() -> T + Send) -> T {
    let builder = thread::Builder::new().stack_size(64 * 1024);
    thread::scope(|scope| builder.spawn_scoped(scope, run).unwrap().join().unwrap())
}

/// The second program's answer, in the archive's form.
fn answer(outcome: Result<[u64; 4], Refusal>) -> Answer {
    let (number, gives) = match outcome {
        Ok(gives) => (0, gives.to_vec()),
        Err(refusal) => (refusal.number(), refusal.values()),
    };
    Answer {
        number: number as usize,
        gives: std::array::from_fn(|place| gives.get(place).map_or(0, |given| *given as usize)),
    }
}

fn theirs(cursor: Cursor) -> second::Cursor {
    second::Cursor {
        length: cursor.len as u64,
        values: cursor.values,
    }
}

fn ours(cursor: second::Cursor) -> Cursor {
    Cursor {
        len: cursor.length as usize,
        values: cursor.values,
    }
}

/// A room of a length. Its bytes have the high bit set, as no value, bound or mark has, so that what a
/// call writes is seen.
fn room(length: usize) -> Vec<u8> {
    (0..length).map(|place| (place % 83) as u8 ^ 0xa5).collect()
}

pub fn check(n: usize, l: usize, table: &[u8]) {
    let got = on_small_stack(|| sys::check(n, l, table));
    let due = second::check(n as u64, l as u64, table).map(|rows| [rows, 0, 0, 0]);
    assert_eq!(got, answer(due), "check {n} {l} {table:?}");
}

pub fn make(n: usize, l: usize, family: usize, table: &[u8], room_length: usize) -> Answer {
    let (mut got_room, mut due_room) = (room(room_length), room(room_length));
    let got = on_small_stack(|| sys::make(n, l, family, table, &mut got_room));
    let due = second::make(n as u64, l as u64, family as u64, table, &mut due_room)
        .map(|made| [made.length, made.rules, 0, 0]);
    let call = || format!("make {n} {l} {family} {table:?}, room {room_length}");
    assert_eq!(got, answer(due), "{}", call());
    assert!(got_room == due_room, "{}: other bytes", call());
    got
}

/// Makes a book with no room, then with room one byte short, just enough, and one byte long.
pub fn make_in_rooms(n: usize, l: usize, family: usize, table: &[u8]) {
    let asked = make(n, l, family, table, 0);
    if asked.number != 8 {
        return;
    }
    let needed = asked.gives[0];
    for room_length in [needed - 1, needed, needed + 1] {
        make(n, l, family, table, room_length);
    }
}

pub fn read(book: &[u8]) -> Answer {
    let got = on_small_stack(|| sys::read(book));
    let due = second::read(book).map(|head| [head.n, head.l, head.family, head.rules]);
    assert_eq!(got, answer(due), "read {book:?}");
    got
}

pub fn rule(book: &[u8], number: usize) {
    let got = on_small_stack(|| sys::rule(book, number));
    let due = second::rule(book, number as u64);
    let due = Part {
        place: due.start,
        length: due.len(),
    };
    assert_eq!(got, due, "rule {number} {book:?}");
}

pub fn test(book: &[u8], combination: &[u8]) {
    let got = on_small_stack(|| sys::test(book, combination));
    let due = second::test(book, combination).map(|tested| match tested {
        second::Tested::Permitted => [1, 0, 0, 0],
        second::Tested::NotMet(rule) => [0, rule, 0, 0],
    });
    assert_eq!(got, answer(due), "test {book:?} {combination:?}");
}

pub fn moves(cursor: Cursor, n: usize, l: usize) {
    let got = on_small_stack(|| {
        [
            sys::down(cursor, n, l),
            sys::along(cursor, n, l),
            sys::up(cursor, n, l),
        ]
    });
    let (from, n, l) = (theirs(cursor), n as u64, l as u64);
    let due = [from.down(n, l), from.along(n, l), from.up(n, l)].map(ours);
    assert_eq!(got, due, "moves of {cursor:?} for {n} {l}");
}

pub fn page(book: &[u8], cursor: Cursor, room_length: usize, budget: usize) -> PageAnswer {
    let (mut got_room, mut due_room) = (room(room_length), room(room_length));
    let got = on_small_stack(|| sys::page(book, cursor, &mut got_room, budget));
    let (due, reached) = second::page(book, theirs(cursor), &mut due_room, budget as u64);
    let due = PageAnswer {
        answer: answer(due.map(|page| [page.rows, page.steps, page.finished.into(), 0])),
        cursor: ours(reached),
    };
    let call = || format!("page {book:?} {cursor:?}, room {room_length}, budget {budget}");
    assert_eq!(got, due, "{}", call());
    assert!(got_room == due_room, "{}: other bytes", call());
    got
}

/// Lists a sound book page by page to its end, each page's room and budget drawn by the caller.
pub fn pages(book: &[u8], mut drawn: impl FnMut() -> (usize, usize)) {
    let mut cursor = Cursor::BEGINNING;
    loop {
        let (room_length, budget) = drawn();
        let paged = page(book, cursor, room_length, budget);
        assert_eq!(paged.answer.number, 0);
        if paged.answer.gives[2] == 1 {
            return;
        }
        cursor = paged.cursor;
    }
}
