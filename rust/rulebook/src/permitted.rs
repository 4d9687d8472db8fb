//! The permitted combinations of a book as an iterator, page after page.

use std::iter::FusedIterator;
use std::ops::Range;

use crate::{Book, Combination, Cursor, MOST_STEPS};

/// Room for the rows of a page. Each page reads the book anew, so a page is to hold thousands of
/// rows; and it is to stay small beside the caches.
const ROOM: usize = 32_768;

/// The permitted combinations of a book, ascending, each once.
///
/// Between two of them any number of pages may be turned, each of at most 65,535 steps. Who must
/// bound the work of one call asks for the pages themselves ([`Book::page`]).
#[derive(Clone, Debug)]
pub struct Permitted<'a> {
    book: Book<&'a [u8]>,
    cursor: Cursor,
    finished: bool,
    room: Vec<u8>,
    /// The rows of the page that were not handed out yet, as bytes of the room.
    left: Range<usize>,
}

impl<'a> Permitted<'a> {
    pub(crate) fn of(book: Book<&'a [u8]>) -> Permitted<'a> {
        Permitted {
            book,
            cursor: Cursor::BEGINNING,
            finished: false,
            room: vec![0; ROOM],
            left: 0..0,
        }
    }

    fn turn(&mut self) {
        let page = self
            .book
            .page(self.cursor, &mut self.room, MOST_STEPS)
            .expect("the book was accepted, the cursor is a page's, room and budget are enough");
        self.cursor = page.cursor;
        self.finished = page.finished;
        self.left = 0..page.rows * self.book.l();
    }
}

impl Iterator for Permitted<'_> {
    type Item = Combination;

    fn next(&mut self) -> Option<Combination> {
        while self.left.is_empty() {
            if self.finished {
                return None;
            }
            self.turn();
        }
        let row = self.left.start..self.left.start + self.book.l();
        self.left.start = row.end;
        Some(Combination::of(&self.room[row]))
    }

    fn size_hint(&self) -> (usize, Option<usize>) {
        let in_hand = self.left.len() / self.book.l();
        (in_hand, self.finished.then_some(in_hand))
    }
}

impl FusedIterator for Permitted<'_> {}
