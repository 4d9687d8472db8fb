//! The smallest call that still shows a difference.

use crate::call::Call;
use crate::smaller::smaller;

/// The search ends when the calls it tried cost so much together, which takes seconds: only the
/// largest calls get there before no step is left.
const MOST: u64 = 1 << 28;

/// A smaller call that still differs, and that no step makes smaller yet.
pub fn smallest(call: Call, differs: impl Fn(&Call) -> bool) -> Call {
    let mut smallest = call;
    let mut lent = 0;
    loop {
        let next = smaller(&smallest)
            .take_while(|candidate| {
                lent += cost(candidate);
                lent < MOST
            })
            .find(|candidate| differs(candidate));
        match next {
            Some(next) => smallest = next,
            None => return smallest,
        }
    }
}

/// About the time that a call takes: some for itself, the bytes it is lent, and for a median's
/// closure the triples of rows.
fn cost(call: &Call) -> u64 {
    let triples = match call {
        Call::Make {
            l: l @ 1..=16,
            family: 3,
            table,
            ..
        } => (table.len() as u64 / l).min(512).pow(3) / 8,
        _ => 0,
    };
    let mut call = call.clone();
    let bytes = call.bytes().into_iter().map(|bytes| bytes.len() as u64);
    500 + bytes.sum::<u64>() + call.room() + triples
}
