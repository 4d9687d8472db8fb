//! Calls one step smaller than a call: fewer rows, a shorter book, a smaller number, a lower byte.

mod books;
mod fitted;
mod runs;
mod tables;

use std::iter;
use std::ops::Range;

use crate::call::{Call, Kind};
use runs::{below, runs, BOLD, FINE};

/// One way to make a call smaller, the boldest steps first.
type Steps<'a> = Box<dyn Iterator<Item = Call> + 'a>;

/// Smaller calls: first those with something left out, then those with something lower.
pub fn smaller(call: &Call) -> impl Iterator<Item = Call> + '_ {
    let size_now = size(call);
    simpler_call(call)
        .into_iter()
        .chain(in_turn(left_out(call, BOLD)))
        .chain(in_turn(narrower(call)))
        .chain(in_turn(left_out(call, FINE)))
        .flat_map(fitted::fitted)
        .chain(numbers_lowered(call))
        .chain(values_lowered(call))
        .chain(tables::settings_zeroed(call))
        .chain(bytes_zeroed(call))
        .chain(books::literals_turned(call))
        .chain(bytes_lowered(call))
        .filter(move |candidate| size(candidate) < size_now)
}

fn left_out(call: &Call, halvings: Range<u32>) -> Vec<Steps<'_>> {
    vec![
        tables::rows_left_out(call, halvings.clone()),
        books::rules_left_out(call, halvings.clone()),
        books::literals_left_out(call, halvings.clone()),
        Box::new(bytes_left_out(call, halvings)),
    ]
}

fn narrower(call: &Call) -> Vec<Steps<'_>> {
    vec![
        tables::settings_left_out(call),
        tables::values_left_out(call),
        books::settings_left_out(call),
        books::values_left_out(call),
    ]
}

/// One step of each way in turn, so that none has to wait for the end of a long one.
fn in_turn<'a>(mut ways: Vec<Steps<'a>>) -> impl Iterator<Item = Call> + 'a {
    let mut turn = 0;
    iter::from_fn(move || {
        while !ways.is_empty() {
            turn %= ways.len();
            match ways[turn].next() {
                Some(call) => {
                    turn += 1;
                    return Some(call);
                }
                None => drop(ways.remove(turn)),
            }
        }
        None
    })
}

/// What makes one call smaller than another: bytes lent, then numbers, then the bytes' values.
/// Each step makes it less, so no call can be made smaller without end.
fn size(call: &Call) -> (usize, u128, u64, Kind) {
    let mut call = call.clone();
    let lent = call.bytes().iter().map(|bytes| bytes.len()).sum();
    let numbers = call.numbers().into_iter().map(|number| u128::from(*number));
    let numbers: u128 = numbers.sum();
    let values = call.cursor().map_or(0, |cursor| sum(&cursor.values));
    let bytes = call.bytes().into_iter().map(|bytes| sum(bytes)).sum();
    (lent, numbers + u128::from(values), bytes, call.kind())
}

fn sum(bytes: &[u8]) -> u64 {
    bytes.iter().map(|byte| u64::from(*byte)).sum()
}

/// The call with one thing about it changed.
fn edited(call: &Call, edit: impl FnOnce(&mut Call)) -> Call {
    let mut edited = call.clone();
    edit(&mut edited);
    edited
}

/// Values without a run of them: those above it come down to it.
fn without_values(values: &mut [u8], run: &Range<usize>) {
    for value in values {
        let down = usize::from(*value).saturating_sub(run.start).min(run.len());
        *value -= down as u8;
    }
}

/// The call that does the first part of what this one does.
fn simpler_call(call: &Call) -> Option<Call> {
    match call {
        Call::Check { .. } | Call::Read { .. } | Call::Move { .. } => None,
        Call::Make { n, l, table, .. } => Some(Call::Check {
            n: *n,
            l: *l,
            table: table.clone(),
        }),
        Call::Rule { book, .. } | Call::Test { book, .. } | Call::Page { book, .. } => {
            let book = book.clone();
            Some(Call::Read { book })
        }
    }
}

/// Each run of bytes that the call is lent, by its number and its length.
fn lengths(call: &Call) -> impl Iterator<Item = (usize, usize)> {
    let lengths: Vec<usize> = call
        .clone()
        .bytes()
        .iter()
        .map(|bytes| bytes.len())
        .collect();
    lengths.into_iter().enumerate()
}

fn bytes_left_out(call: &Call, halvings: Range<u32>) -> impl Iterator<Item = Call> + '_ {
    lengths(call).flat_map(move |(which, length)| {
        // The end first: what stands before a cut keeps its meaning.
        let from_the_end =
            runs(length, halvings.clone()).map(move |run| length - run.end..length - run.start);
        from_the_end.map(move |run| edited(call, |call| drop(call.bytes()[which].drain(run))))
    })
}

fn bytes_zeroed(call: &Call) -> impl Iterator<Item = Call> + '_ {
    lengths(call).flat_map(move |(which, length)| {
        runs(length, 0..usize::BITS)
            .map(move |run| edited(call, |call| call.bytes()[which][run].fill(0)))
    })
}

fn bytes_lowered(call: &Call) -> impl Iterator<Item = Call> + '_ {
    let places =
        lengths(call).flat_map(|(which, length)| (0..length).map(move |place| (which, place)));
    places.flat_map(move |(which, place)| {
        let byte = call.clone().bytes()[which][place];
        below(u64::from(byte))
            .map(move |lower| edited(call, |call| call.bytes()[which][place] = lower as u8))
    })
}

fn numbers_lowered(call: &Call) -> impl Iterator<Item = Call> + '_ {
    let numbers: Vec<u64> = call
        .clone()
        .numbers()
        .into_iter()
        .map(|number| *number)
        .collect();
    numbers
        .into_iter()
        .enumerate()
        .flat_map(move |(which, number)| {
            below(number).map(move |lower| edited(call, |call| *call.numbers()[which] = lower))
        })
}

fn values_lowered(call: &Call) -> impl Iterator<Item = Call> + '_ {
    let values = call
        .clone()
        .cursor()
        .map_or([0; 16], |cursor| cursor.values);
    values
        .into_iter()
        .enumerate()
        .flat_map(move |(place, value)| {
            below(u64::from(value)).map(move |lower| {
                edited(call, |call| {
                    if let Some(cursor) = call.cursor() {
                        cursor.values[place] = lower as u8;
                    }
                })
            })
        })
}
