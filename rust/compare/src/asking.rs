//! The calls as the groups ask them.

use second::Cursor;

use crate::call::{Call, Way};
use crate::chance::Chance;
use crate::comparer::Comparer;
use crate::inputs::combinations;
use crate::inputs::tables::Table;

/// Pages asked of one book at most.
const MOST_PAGES: usize = 200;

/// What a page is given besides the book.
pub struct Page {
    pub cursor: Cursor,
    pub room: u64,
    pub budget: u64,
}

/// What the head of an accepted book says of its size.
#[derive(Clone, Copy)]
pub struct Size {
    pub n: u64,
    pub l: u64,
    pub rules: u64,
}

impl Comparer {
    pub fn check(&mut self, table: &Table) {
        self.ask(Call::Check {
            n: table.n,
            l: table.l,
            table: table.bytes.clone(),
        });
    }

    /// Makes a book in a room of a length; gives the book where it is made.
    pub fn make(&mut self, table: &Table, family: u64, room: u64) -> Option<Vec<u8>> {
        let answer = self.ask(Call::Make {
            n: table.n,
            l: table.l,
            family,
            table: table.bytes.clone(),
            room,
        });
        let [length, ..] = answer.gives;
        let book = answer.room?.bytes().get(..length as usize)?.to_vec();
        (answer.number == 0).then_some(book)
    }

    /// Makes a book with no room, and where one is made, with room one byte short, just enough, and
    /// some bytes long; gives the book.
    pub fn make_in_rooms(&mut self, table: &Table, family: u64) -> Option<Vec<u8>> {
        let answer = self.ask(Call::Make {
            n: table.n,
            l: table.l,
            family,
            table: table.bytes.clone(),
            room: 0,
        });
        if answer.number != 8 {
            return None;
        }
        let [needed, ..] = answer.gives;
        self.make(table, family, needed - 1);
        self.make(table, family, needed + 1);
        self.make(table, family, needed + 7);
        self.make(table, family, needed)
    }

    /// Reads a book; gives its size where it is accepted.
    pub fn read(&mut self, book: &[u8]) -> Option<Size> {
        let book = book.to_vec();
        let answer = self.ask(Call::Read { book });
        let [n, l, _, rules] = answer.gives;
        (answer.number == 0).then_some(Size { n, l, rules })
    }

    pub fn rule(&mut self, book: &[u8], number: u64) {
        let book = book.to_vec();
        self.ask(Call::Rule { book, number });
    }

    pub fn test(&mut self, book: &[u8], combination: &[u8]) {
        self.ask(Call::Test {
            book: book.to_vec(),
            combination: combination.to_vec(),
        });
    }

    /// The three moves of a cursor.
    pub fn moves(&mut self, cursor: Cursor, n: u64, l: u64) {
        for way in [Way::Down, Way::Along, Way::Up] {
            self.ask(Call::Move { way, cursor, n, l });
        }
    }

    /// A page in a room of a length; gives its cursor, and whether it is the last one to ask for.
    pub fn page(&mut self, book: &[u8], cursor: Cursor, room: u64, budget: u64) -> (Cursor, bool) {
        let answer = self.ask(Call::Page {
            book: book.to_vec(),
            cursor,
            room,
            budget,
        });
        let last = answer.number != 0 || answer.gives[2] == 1;
        (answer.cursor.unwrap_or(cursor), last)
    }

    /// Pages from the beginning, each with a room and a budget, to the end.
    pub fn pages(&mut self, book: &[u8], mut given: impl FnMut() -> (u64, u64)) {
        let mut cursor = Cursor::BEGINNING;
        for _ in 0..MOST_PAGES {
            let (room, budget) = given();
            let (reached, last) = self.page(book, cursor, room, budget);
            if last {
                return;
            }
            cursor = reached;
        }
    }

    /// Every call that takes a book; gives its size where it is accepted.
    pub fn each_call(&mut self, book: &[u8], combination: &[u8], page: Page) -> Option<Size> {
        self.rule(book, 0);
        self.rule(book, 1);
        self.test(book, combination);
        self.page(book, page.cursor, page.room, page.budget);
        self.read(book)
    }

    /// Reads a book, and where it is accepted asks for each rule and one more, tests each
    /// combination, and lists the book in pages by chance.
    pub fn go_through(&mut self, book: &[u8], chance: &mut Chance) {
        let Some(Size { n, l, rules }) = self.read(book) else {
            return;
        };
        for number in 0..=rules {
            self.rule(book, number);
        }
        for combination in combinations(n, l) {
            self.test(book, &combination);
        }
        self.pages(book, || (l + chance.pick(3 * l), 1 + chance.pick(9)));
    }
}
