//! Smaller tables: rows, settings or values left out.

use std::ops::Range;

use super::runs::{runs, BOLD};
use super::{edited, without_values, Steps};
use crate::call::Call;

/// The same call with fewer rows.
pub fn rows_left_out(call: &Call, halvings: Range<u32>) -> Steps<'_> {
    let Some((_, l, rows)) = shape(call) else {
        return Box::new([].into_iter());
    };
    Box::new(runs(rows, halvings).map(move |run| {
        with(call, |_, _, table| {
            table.drain(run.start * l..run.end * l);
        })
    }))
}

/// The same call with fewer settings.
pub fn settings_left_out(call: &Call) -> Steps<'_> {
    let (_, l, _) = shape(call).unwrap_or_default();
    Box::new(runs(l, BOLD).map(move |run| {
        with(call, |_, width, table| {
            let mut place = 0..;
            table.retain(|_| !run.contains(&(place.next().unwrap_or(0) % l)));
            *width -= run.len() as u64;
        })
    }))
}

/// The same call with fewer values.
pub fn values_left_out(call: &Call) -> Steps<'_> {
    let (n, _, _) = shape(call).unwrap_or_default();
    Box::new(runs(n, 0..8).map(move |run| {
        with(call, |n, _, table| {
            without_values(table, &run);
            *n -= run.len() as u64;
        })
    }))
}

/// The same call with one setting 0 in every row.
pub fn settings_zeroed(call: &Call) -> impl Iterator<Item = Call> + '_ {
    let (_, l, _) = shape(call).unwrap_or_default();
    (0..l).map(move |setting| {
        with(call, |_, _, table| {
            let values = table.iter_mut().skip(setting).step_by(l);
            values.for_each(|value| *value = 0);
        })
    })
}

/// n, l and the number of rows, where n and l are such as a table can have.
fn shape(call: &Call) -> Option<(usize, usize, usize)> {
    match call {
        Call::Check { n, l, table } | Call::Make { n, l, table, .. } => {
            let sound = (1..=64).contains(n) && (1..=16).contains(l);
            sound.then(|| (*n as usize, *l as usize, table.len() / *l as usize))
        }
        _ => None,
    }
}

fn with(call: &Call, edit: impl FnOnce(&mut u64, &mut u64, &mut Vec<u8>)) -> Call {
    edited(call, |call| {
        if let Call::Check { n, l, table } | Call::Make { n, l, table, .. } = call {
            edit(n, l, table);
        }
    })
}
