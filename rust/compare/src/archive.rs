//! The proved archive, asked through the calls of `include/rulebook.h`.

use std::hint::black_box;

use rulebook::sys;
use second::Cursor;

use crate::answer::Answer;
use crate::call::{Call, Way};
use crate::room::Room;

/// The archive's answer to a call.
pub fn ask(call: &Call) -> Answer {
    match call {
        Call::Check { n, l, table } => lent(table, |table| {
            plain(sys::check(*n as usize, *l as usize, table))
        }),
        Call::Make {
            n,
            l,
            family,
            table,
            room,
        } => in_room(*room, |room| {
            lent(table, |table| {
                let (n, l, family) = (*n as usize, *l as usize, *family as usize);
                plain(sys::make(n, l, family, table, room))
            })
        }),
        Call::Read { book } => lent(book, |book| plain(sys::read(book))),
        Call::Rule { book, number } => lent(book, |book| {
            let part = sys::rule(book, *number as usize);
            Answer::giving([part.place as u64, part.length as u64])
        }),
        Call::Test { book, combination } => lent(book, |book| {
            lent(combination, |combination| {
                plain(sys::test(book, combination))
            })
        }),
        Call::Move { way, cursor, n, l } => {
            let step = match way {
                Way::Down => sys::down,
                Way::Along => sys::along,
                Way::Up => sys::up,
            };
            Answer {
                cursor: Some(theirs(step(ours(cursor), *n as usize, *l as usize))),
                ..Answer::default()
            }
        }
        Call::Page {
            book,
            cursor,
            room,
            budget,
        } => in_room(*room, |room| {
            lent(book, |book| {
                let paged = sys::page(book, ours(cursor), room, *budget as usize);
                Answer {
                    cursor: Some(theirs(paged.cursor)),
                    ..plain(paged.answer)
                }
            })
        }),
    }
}

/// Asks with a copy of bytes that are only to be read, and notes whether the copy changed.
fn lent(bytes: &[u8], ask: impl FnOnce(&[u8]) -> Answer) -> Answer {
    let mut copy = bytes.to_vec();
    let answer = ask(&copy);
    // The compiler takes bytes behind a shared reference for unchanged; so it is told to look.
    let changed = *black_box(&mut copy) != bytes;
    Answer {
        changed: changed || answer.changed,
        ..answer
    }
}

/// Asks with a room of a length, and keeps the room.
fn in_room(length: u64, ask: impl FnOnce(&mut [u8]) -> Answer) -> Answer {
    let mut room = Room::new(length);
    let answer = ask(room.lent());
    Answer {
        room: Some(room),
        ..answer
    }
}

fn plain(answer: sys::Answer) -> Answer {
    Answer {
        number: answer.number as u64,
        gives: answer.gives.map(|given| given as u64),
        ..Answer::default()
    }
}

fn ours(cursor: &Cursor) -> rulebook::Cursor {
    rulebook::Cursor {
        len: cursor.length as usize,
        values: cursor.values,
    }
}

fn theirs(cursor: rulebook::Cursor) -> Cursor {
    Cursor {
        length: cursor.len as u64,
        values: cursor.values,
    }
}
