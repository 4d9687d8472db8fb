//! The second program, written from document 01 alone, asked the same calls.

use second::{Refusal, Tested};

use crate::answer::Answer;
use crate::call::{Call, Way};
use crate::room::Room;

/// The second program's answer to a call.
pub fn ask(call: &Call) -> Answer {
    match call {
        Call::Check { n, l, table } => plain(second::check(*n, *l, table).map(|rows| [rows])),
        Call::Make {
            n,
            l,
            family,
            table,
            room,
        } => {
            let mut room = Room::new(*room);
            let made = second::make(*n, *l, *family, table, room.lent());
            Answer {
                room: Some(room),
                ..plain(made.map(|made| [made.length, made.rules]))
            }
        }
        Call::Read { book } => {
            plain(second::read(book).map(|head| [head.n, head.l, head.family, head.rules]))
        }
        Call::Rule { book, number } => {
            let part = second::rule(book, *number);
            Answer::giving([part.start as u64, part.len() as u64])
        }
        Call::Test { book, combination } => {
            plain(second::test(book, combination).map(|tested| match tested {
                Tested::Permitted => [1, 0],
                Tested::NotMet(rule) => [0, rule],
            }))
        }
        Call::Move { way, cursor, n, l } => {
            let moved = match way {
                Way::Down => cursor.down(*n, *l),
                Way::Along => cursor.along(*n, *l),
                Way::Up => cursor.up(*n, *l),
            };
            Answer {
                cursor: Some(moved),
                ..Answer::default()
            }
        }
        Call::Page {
            book,
            cursor,
            room,
            budget,
        } => {
            let mut room = Room::new(*room);
            let (paged, reached) = second::page(book, *cursor, room.lent(), *budget);
            Answer {
                cursor: Some(reached),
                room: Some(room),
                ..plain(paged.map(|page| [page.rows, page.steps, u64::from(page.finished)]))
            }
        }
    }
}

fn plain<const COUNT: usize>(outcome: Result<[u64; COUNT], Refusal>) -> Answer {
    match outcome {
        Ok(given) => Answer::giving(given),
        Err(refusal) => Answer::numbered(refusal.number(), &refusal.values()),
    }
}
