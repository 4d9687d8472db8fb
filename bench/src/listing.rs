//! Pages one after another, from the library and from the second program alike.

use std::hint::black_box;

use rulebook::{Book, Cursor, Page};

/// Bytes of a page's room.
pub const ROOM: usize = 65_536;

/// The page of a book from a cursor on, with a budget, as the library answers it.
pub fn by_library<'a>(
    book: Book<&'a [u8]>,
    budget: usize,
) -> impl Fn(Cursor, &mut [u8]) -> Page + 'a {
    move |cursor, room| book.page(cursor, room, budget).expect("a sound call")
}

/// The same, as the second program answers it.
pub fn by_second<'a>(
    book: Book<&'a [u8]>,
    budget: usize,
) -> impl Fn(Cursor, &mut [u8]) -> Page + 'a {
    let book = book.into_bytes();
    move |cursor, room| {
        let after = second::Cursor {
            length: cursor.len as u64,
            values: cursor.values,
        };
        let (page, reached) = second::page(book, after, room, budget as u64);
        let page = page.expect("a sound call");
        Page {
            rows: page.rows as usize,
            steps: page.steps as usize,
            finished: page.finished,
            cursor: Cursor {
                len: reached.length as usize,
                values: reached.values,
            },
        }
    }
}

/// What pages come to together.
#[derive(Clone, Copy, Debug, Default, PartialEq, Eq)]
pub struct Count {
    pub pages: usize,
    pub rows: usize,
    pub steps: usize,
}

/// What must agree between the library and the second program: every page, and its rows.
#[derive(Debug, PartialEq, Eq)]
pub struct Checked {
    pub count: Count,
    /// Over every value of every row in order; gecode.cpp makes the same.
    pub checksum: u64,
    pages: Vec<Page>,
}

/// The pages from the beginning on, each from the cursor that the last one gave.
pub struct Pages<P> {
    l: usize,
    most: usize,
    page: P,
    room: Vec<u8>,
}

impl<P: Fn(Cursor, &mut [u8]) -> Page> Pages<P> {
    /// At most so many pages of rows of l values.
    pub fn new(l: usize, most: usize, page: P) -> Pages<P> {
        let room = vec![1; ROOM];
        Pages {
            l,
            most,
            page,
            room,
        }
    }

    /// Nothing but the pages: what is timed.
    pub fn count(&mut self) -> Count {
        self.each(|page, rows| {
            black_box((page, rows));
        })
    }

    /// The pages, and what can be compared of them.
    pub fn check(&mut self) -> Checked {
        let (mut checksum, mut pages) = (0, Vec::new());
        let count = self.each(|page, rows| {
            pages.push(*page);
            checksum = rows.iter().fold(checksum, |sum: u64, value| {
                (sum ^ u64::from(*value)).wrapping_mul(0x100_0000_01b3)
            });
        });
        Checked {
            count,
            checksum,
            pages,
        }
    }

    fn each(&mut self, mut see: impl FnMut(&Page, &[u8])) -> Count {
        let mut count = Count::default();
        let mut cursor = Cursor::BEGINNING;
        while count.pages < self.most {
            let page = (self.page)(cursor, &mut self.room);
            see(&page, &self.room[..page.rows * self.l]);
            count.pages += 1;
            count.rows += page.rows;
            count.steps += page.steps;
            if page.finished {
                break;
            }
            cursor = page.cursor;
        }
        count
    }
}
