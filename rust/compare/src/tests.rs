//! Faults planted in the second program's answers are found, and shown by the smallest call.

use second::Cursor;

use crate::answer::Answer;
use crate::archive;
use crate::call::{Call, Way};
use crate::comparer::{Comparer, Side};
use crate::groups::{books, counted, moves, Group};
use crate::independent;
use crate::inputs::books::written;

/// The smallest calls at which a group finds a planted fault.
fn found(group: Group, planted: Side) -> Vec<Call> {
    let mut comparer = Comparer::new(archive::ask, planted);
    group(&mut comparer, 1);
    let found = comparer.found().iter();
    found.map(|difference| difference.call.clone()).collect()
}

/// What a call at which a planted fault shows is made into.
fn made_small(call: Call, planted: Side) -> Call {
    let mut comparer = Comparer::new(archive::ask, planted);
    comparer.ask(call);
    comparer.found()[0].call.clone()
}

#[test]
fn two_that_agree() {
    assert_eq!(found(counted::bench, independent::ask), []);
}

/// A fault at one call and no other is found, and nothing smaller is made of that call.
#[test]
fn one_wrong_answer() {
    fn the_call() -> Call {
        Call::Test {
            book: written(4, 2, 0, &[vec![[0, 0, 1], [1, 1, 3]]]),
            combination: vec![2, 1],
        }
    }
    fn planted(call: &Call) -> Answer {
        if *call == the_call() {
            return Answer::giving([1]);
        }
        independent::ask(call)
    }
    assert_eq!(found(books::literals, planted), [the_call()]);
}

#[test]
fn a_byte_written_beyond_the_book() {
    fn planted(call: &Call) -> Answer {
        let mut answer = independent::ask(call);
        if let (Call::Make { .. }, 0, Some(room)) = (call, answer.number, &mut answer.room) {
            let length = answer.gives[0] as usize;
            if let Some(byte) = room.lent().get_mut(length) {
                *byte = 0;
            }
        }
        answer
    }
    let smallest = Call::Make {
        n: 1,
        l: 1,
        family: 0,
        table: vec![],
        room: 13,
    };
    assert_eq!(found(counted::bench, planted), [smallest]);
}

#[test]
fn a_room_one_byte_short() {
    fn planted(call: &Call) -> Answer {
        match (call, independent::ask(call)) {
            (Call::Make { room, .. }, answer)
                if answer.number == 8 && answer.gives[0] == room + 1 =>
            {
                Answer {
                    number: 0,
                    ..answer
                }
            }
            (_, answer) => answer,
        }
    }
    let mut call = Call::Make {
        n: 4,
        l: 3,
        family: 0,
        table: vec![0, 1, 3, 1, 2, 0, 1, 2, 2, 3, 3, 3],
        room: 0,
    };
    let [needed, ..] = independent::ask(&call).gives;
    *call.numbers()[3] = needed - 1;
    let smallest = Call::Make {
        n: 1,
        l: 1,
        family: 0,
        table: vec![],
        room: 11,
    };
    assert_eq!(made_small(call, planted), smallest);
}

#[test]
fn refusal_4_before_3() {
    fn planted(call: &Call) -> Answer {
        let answer = independent::ask(call);
        if let (Call::Check { n, table, .. }, 3) = (call, answer.number) {
            let high = table.iter().position(|value| u64::from(*value) >= *n);
            return high.map_or(answer, |place| Answer::numbered(4, &[place as u64]));
        }
        answer
    }
    let call = Call::Check {
        n: 9,
        l: 3,
        table: vec![77; 3 * 600],
    };
    match made_small(call, planted) {
        Call::Check { n: 1, l: 1, table } => {
            assert_eq!(table.len(), 513);
            assert_eq!(table.iter().sum::<u8>(), 1);
        }
        other => panic!("{other}"),
    }
}

/// One step too many where a rule of a book decides something.
#[test]
fn a_step_too_many() {
    fn planted(call: &Call) -> Answer {
        let mut answer = independent::ask(call);
        if let (Call::Page { book, .. }, 0) = (call, answer.number) {
            answer.gives[1] += u64::from(book.len() > 12 && answer.gives[2] == 0);
        }
        answer
    }
    let smallest = Call::Page {
        book: written(2, 1, 0, &[vec![[0, 0, 0]]]),
        cursor: Cursor::BEGINNING,
        room: 1,
        budget: 1,
    };
    assert_eq!(found(books::typed, planted), [smallest]);
}

/// A page that ends just at the last visited prefix and is not called finished.
#[test]
fn the_last_step_not_called_finished() {
    fn planted(call: &Call) -> Answer {
        let mut answer = independent::ask(call);
        if let (Call::Page { budget, .. }, 0) = (call, answer.number) {
            if answer.gives[1] == *budget {
                answer.gives[2] = 0;
            }
        }
        answer
    }
    let smallest = Call::Page {
        book: written(1, 1, 0, &[]),
        cursor: Cursor::BEGINNING,
        room: 1,
        budget: 1,
    };
    assert_eq!(found(books::typed, planted), [smallest]);
}

#[test]
fn a_value_never_moved_to() {
    fn planted(call: &Call) -> Answer {
        let mut answer = independent::ask(call);
        if let (Call::Move { cursor, .. }, Some(moved)) = (call, &mut answer.cursor) {
            if moved.values[2] == 2 {
                *moved = *cursor;
            }
        }
        answer
    }
    let smallest = Call::Move {
        way: Way::Along,
        cursor: Cursor::at(&[0, 0, 1]),
        n: 3,
        l: 3,
    };
    assert_eq!(found(moves::moves, planted)[0], smallest);
}

/// A run that leaves calls out does not pass for a whole one.
#[test]
fn answers_never_seen() {
    let mut comparer = Comparer::new(archive::ask, independent::ask);
    moves::moves(&mut comparer, 1);
    let missing: Vec<String> = comparer
        .missing()
        .iter()
        .map(|sight| sight.to_string())
        .collect();
    assert_eq!(missing.len(), 6 + 4 + 6 + 3 + 4 + 8 + 2 + 11 + 12);
    assert!(missing.contains(&"make: refusal 7 in family 3".to_string()));
    assert!(missing.contains(&"page: unfinished".to_string()));
    assert_eq!(comparer.strange(), []);
}

/// An answer that both sides give and no paper allows does not pass either.
#[test]
fn an_answer_not_allowed() {
    fn planted(call: &Call) -> Answer {
        match call {
            Call::Read { .. } => Answer::numbered(8, &[0]),
            _ => independent::ask(call),
        }
    }
    let mut comparer = Comparer::new(planted, planted);
    counted::bench(&mut comparer, 1);
    assert_eq!(comparer.differences(), 0);
    let strange: Vec<String> = comparer
        .strange()
        .iter()
        .map(|sight| sight.to_string())
        .collect();
    assert_eq!(strange, ["read: refusal 8"]);
}
