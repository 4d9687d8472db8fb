//! Smaller books: rules, literals, settings or values left out, and the counts made to fit.

use std::ops::Range;

use second::Cursor;

use super::runs::{runs, BOLD};
use super::{edited, without_values, Steps};
use crate::call::Call;

/// Places in the head.
const N: usize = 2;
const L: usize = 3;
const RULES: usize = 5;
/// Bytes of the head, of a rule's mark and count, and of a literal.
const HEAD: usize = 7;
const BEFORE_LITERALS: usize = 3;
const LITERAL: usize = 3;

/// Setting, sign, bound.
type Literal = [u8; LITERAL];

/// The same call with fewer rules.
pub fn rules_left_out(call: &Call, halvings: Range<u32>) -> Steps<'_> {
    let book = call.book().unwrap_or(&[]);
    let records = records(book);
    Box::new(runs(records.len(), halvings).map(move |run| {
        let mut left = book.to_vec();
        let rules = u16::from_be_bytes([book[RULES], book[RULES + 1]]);
        let rules = rules.saturating_sub(run.len() as u16);
        left[RULES..RULES + 2].copy_from_slice(&rules.to_be_bytes());
        left.drain(records[run.start].start..records[run.end - 1].end);
        with_book(call, left)
    }))
}

/// The same call with fewer literals.
pub fn literals_left_out(call: &Call, halvings: Range<u32>) -> Steps<'_> {
    let book = call.book().unwrap_or(&[]);
    Box::new(runs(count(book), halvings).map(move |run| {
        let left = rewritten(book, |number, literal| {
            (!run.contains(&number)).then_some(literal)
        });
        with_book(call, left)
    }))
}

/// The same call with fewer settings: in the book, the combination, the cursor and the room's rows.
pub fn settings_left_out(call: &Call) -> Steps<'_> {
    let book = call.book().unwrap_or(&[]);
    let settings = match book.get(L) {
        Some(l @ 1..=16) => usize::from(*l),
        _ => 0,
    };
    Box::new(runs(settings, BOLD).map(move |run| without_settings(call, book, run)))
}

/// The same call with fewer values: in the book, the combination and the cursor.
pub fn values_left_out(call: &Call) -> Steps<'_> {
    let book = call.book().unwrap_or(&[]);
    let values = match book.get(N) {
        Some(n @ 1..=64) => usize::from(*n),
        _ => 0,
    };
    Box::new(runs(values, 0..8).map(move |run| {
        let left = rewritten(book, |_, [setting, sign, bound]| {
            // The values at most a bound are those below the next value.
            let above = 1 - sign.min(1);
            let mut edge = [bound.saturating_add(above)];
            without_values(&mut edge, &run);
            Some([setting, sign, edge[0].saturating_sub(above)])
        });
        let mut less = with_book(call, left);
        less.bytes()[0][N] -= run.len() as u8;
        if let Call::Test { combination, .. } = &mut less {
            without_values(combination, &run);
        }
        if let Some(cursor) = less.cursor() {
            without_values(&mut cursor.values, &run);
        }
        less
    }))
}

/// The same call with "at most d-1" for one "at least d", which is as far from holding always.
pub fn literals_turned(call: &Call) -> impl Iterator<Item = Call> + '_ {
    let book = call.book().unwrap_or(&[]);
    (0..count(book)).map(move |which| {
        let turned = rewritten(book, |number, literal| match literal {
            [setting, 1, bound @ 1..=255] if number == which => Some([setting, 0, bound - 1]),
            _ => Some(literal),
        });
        with_book(call, turned)
    })
}

fn with_book(call: &Call, smaller: Vec<u8>) -> Call {
    edited(call, |call| {
        if let Some(book) = call.bytes().into_iter().next() {
            *book = smaller;
        }
    })
}

/// Where the rules stand, as far as the bytes are a book.
fn records(book: &[u8]) -> Vec<Range<usize>> {
    let mut records = Vec::new();
    let mut start = HEAD;
    while let Some([0x52, 0x55, count]) = book.get(start..start + BEFORE_LITERALS) {
        let end = start + BEFORE_LITERALS + LITERAL * usize::from(*count);
        if end > book.len() {
            break;
        }
        records.push(start..end);
        start = end;
    }
    records
}

/// Number of literals of all rules.
fn count(book: &[u8]) -> usize {
    let literals = |record: Range<usize>| (record.len() - BEFORE_LITERALS) / LITERAL;
    records(book).into_iter().map(literals).sum()
}

/// The book with each literal, by its number among all, made another one or left out.
fn rewritten(book: &[u8], mut made: impl FnMut(usize, Literal) -> Option<Literal>) -> Vec<u8> {
    let mut end = HEAD.min(book.len());
    let mut rewritten = book[..end].to_vec();
    let mut number = 0;
    for record in records(book) {
        let mut literals = Vec::new();
        for literal in book[record.start + BEFORE_LITERALS..record.end].chunks(LITERAL) {
            literals.extend(made(number, [literal[0], literal[1], literal[2]]));
            number += 1;
        }
        rewritten.extend([0x52, 0x55, literals.len() as u8]);
        rewritten.extend(literals.concat());
        end = record.end;
    }
    rewritten.extend(&book[end..]);
    rewritten
}

fn without_settings(call: &Call, book: &[u8], run: Range<usize>) -> Call {
    let (fewer, l) = (run.len() as u8, book[L]);
    let mut left = rewritten(book, |_, [setting, sign, bound]| {
        match usize::from(setting) {
            before if before < run.start => Some([setting, sign, bound]),
            within if within < run.end => None,
            _ => Some([setting - fewer, sign, bound]),
        }
    });
    left[L] -= fewer;
    let mut less = with_book(call, left);
    match &mut less {
        Call::Test { combination, .. } => {
            let end = run.end.min(combination.len());
            combination.drain(run.start.min(end)..end);
        }
        Call::Page { cursor, room, .. } => {
            *cursor = cursor_without(cursor, run);
            *room = *room / u64::from(l) * u64::from(l - fewer);
        }
        _ => {}
    }
    less
}

fn cursor_without(cursor: &Cursor, run: Range<usize>) -> Cursor {
    let mut left = *cursor;
    left.values[run.start..].rotate_left(run.len());
    left.values[16 - run.len()..].fill(0);
    let used = |end: usize| cursor.length.min(end as u64);
    left.length -= used(run.end) - used(run.start);
    left
}
