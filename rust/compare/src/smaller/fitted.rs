//! Rooms and budgets that fit a call: a fault at the edge of the room shows in a smaller call only
//! if the room shrinks with the book.

use super::edited;
use crate::call::Call;
use crate::independent;

/// Rows and steps that a page is asked for at most, to see how many there are.
const MANY: u64 = 2_000;

/// The call itself, and the same with its room or its budget at the edge.
pub fn fitted(call: Call) -> impl Iterator<Item = Call> {
    let edges = match &call {
        Call::Make { .. } => with_rooms(&call),
        Call::Page { .. } => with_rooms_and_budgets(&call),
        _ => vec![],
    };
    [call].into_iter().chain(edges)
}

fn with_rooms(call: &Call) -> Vec<Call> {
    let asked = independent::ask(&with_room(call, 0));
    match (asked.number, asked.gives) {
        (8, [needed, ..]) => [needed - 1, needed, needed + 1]
            .map(|room| with_room(call, room))
            .to_vec(),
        _ => vec![],
    }
}

fn with_rooms_and_budgets(call: &Call) -> Vec<Call> {
    let Some(l) = call.book().and_then(|book| book.get(3)) else {
        return vec![];
    };
    let l = u64::from(*l);
    let asked = independent::ask(&with_budget(&with_room(call, MANY * l), MANY));
    if asked.number != 0 {
        return vec![];
    }
    let [rows, steps, ..] = asked.gives;
    let (rows, steps) = (with_room(call, rows * l), with_budget(call, steps));
    vec![with_room(&steps, rows.room()), rows, steps]
}

fn with_room(call: &Call, length: u64) -> Call {
    edited(call, |call| {
        if let Call::Make { room, .. } | Call::Page { room, .. } = call {
            *room = length;
        }
    })
}

fn with_budget(call: &Call, steps: u64) -> Call {
    edited(call, |call| {
        if let Call::Page { budget, .. } = call {
            *budget = steps;
        }
    })
}
