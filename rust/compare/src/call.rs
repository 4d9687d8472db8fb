//! A call of the library, with all that is given to it.

use second::Cursor;

/// A call. Numbers and bytes may be any; a room is given by its length.
#[derive(Clone, Debug, PartialEq, Eq)]
pub enum Call {
    Check {
        n: u64,
        l: u64,
        table: Vec<u8>,
    },
    Make {
        n: u64,
        l: u64,
        family: u64,
        table: Vec<u8>,
        room: u64,
    },
    Read {
        book: Vec<u8>,
    },
    Rule {
        book: Vec<u8>,
        number: u64,
    },
    Test {
        book: Vec<u8>,
        combination: Vec<u8>,
    },
    Move {
        way: Way,
        cursor: Cursor,
        n: u64,
        l: u64,
    },
    Page {
        book: Vec<u8>,
        cursor: Cursor,
        room: u64,
        budget: u64,
    },
}

/// A move of a cursor.
#[derive(Clone, Copy, Debug, PartialEq, Eq, PartialOrd, Ord)]
pub enum Way {
    Down,
    Along,
    Up,
}

/// Which call it is; a simpler one stands before those that do the same and more.
#[derive(Clone, Copy, Debug, PartialEq, Eq, PartialOrd, Ord)]
pub enum Kind {
    Check,
    Make,
    Read,
    Rule,
    Test,
    Move(Way),
    Page,
}

impl Call {
    /// Which call it is.
    pub fn kind(&self) -> Kind {
        match self {
            Call::Check { .. } => Kind::Check,
            Call::Make { .. } => Kind::Make,
            Call::Read { .. } => Kind::Read,
            Call::Rule { .. } => Kind::Rule,
            Call::Test { .. } => Kind::Test,
            Call::Move { way, .. } => Kind::Move(*way),
            Call::Page { .. } => Kind::Page,
        }
    }

    /// The book, where the call takes one.
    pub fn book(&self) -> Option<&[u8]> {
        match self {
            Call::Check { .. } | Call::Make { .. } | Call::Move { .. } => None,
            Call::Read { book }
            | Call::Rule { book, .. }
            | Call::Test { book, .. }
            | Call::Page { book, .. } => Some(book),
        }
    }

    /// The bytes that the call is lent to read.
    pub fn bytes(&mut self) -> Vec<&mut Vec<u8>> {
        match self {
            Call::Check { table, .. } | Call::Make { table, .. } => vec![table],
            Call::Read { book } | Call::Rule { book, .. } | Call::Page { book, .. } => vec![book],
            Call::Test { book, combination } => vec![book, combination],
            Call::Move { .. } => vec![],
        }
    }

    /// The numbers that the call is given, lengths of rooms and cursors among them.
    pub fn numbers(&mut self) -> Vec<&mut u64> {
        match self {
            Call::Check { n, l, .. } => vec![n, l],
            Call::Make {
                n, l, family, room, ..
            } => vec![n, l, family, room],
            Call::Read { .. } | Call::Test { .. } => vec![],
            Call::Rule { number, .. } => vec![number],
            Call::Move { cursor, n, l, .. } => vec![n, l, &mut cursor.length],
            Call::Page {
                cursor,
                room,
                budget,
                ..
            } => vec![room, budget, &mut cursor.length],
        }
    }

    /// The cursor, where the call takes one.
    pub fn cursor(&mut self) -> Option<&mut Cursor> {
        match self {
            Call::Move { cursor, .. } | Call::Page { cursor, .. } => Some(cursor),
            _ => None,
        }
    }

    /// The length of the room that the call is lent, 0 where it is lent none.
    pub fn room(&self) -> u64 {
        match self {
            Call::Make { room, .. } | Call::Page { room, .. } => *room,
            _ => 0,
        }
    }
}
