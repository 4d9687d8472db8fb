//! Books: making one from a table, reading one, and what an accepted book answers.

use std::fmt;

use crate::{sys, Cursor, Family, Page, Permitted, Refusal, Rule, Rules, MOST_ROWS, MOST_SETTINGS};

/// Bytes of a book's head, before its first rule.
const HEAD: usize = 7;
/// Bytes of the end.
const END: usize = 2;

/// Bytes that were accepted as a book: owned, as `Book`, or lent, as `Book<&[u8]>`.
///
/// Two books with the same head and rules are the same bytes, so they are compared as bytes.
#[derive(Clone, Copy, Debug, PartialEq, Eq, Hash)]
pub struct Book<B = Vec<u8>> {
    bytes: B,
    n: usize,
    l: usize,
    family: Family,
    rules: usize,
}

/// What a test of a combination answers.
#[derive(Clone, Copy, Debug, PartialEq, Eq, Hash)]
pub enum Verdict {
    /// Every rule is met.
    Permitted,
    /// Some rule is not.
    NotMet {
        /// The number of the first such rule.
        rule: usize,
    },
}

/// Makes the book of a table in a family: a combination meets it exactly when it is a row.
/// Refusals 1 to 7, in order.
///
/// ```
/// use rulebook::{make, Family, OpenRows, Refusal};
///
/// // The rows 01 and 10: no row is their minimum, but medians of two rows are rows.
/// let table = [0, 1, 1, 0];
/// let rows = OpenRows::Pair(0, 1);
/// assert_eq!(make(2, 2, Family::Horn, &table), Err(Refusal::Open { rows }));
/// let book = make(2, 2, Family::Bijunctive, &table)?;
/// assert_eq!(book.to_string(), "book 2 2 3 2\nrule 0 0>=1 1>=1\nrule 1 0<=0 1<=0");
/// # Ok::<(), Refusal>(())
/// ```
pub fn make(n: usize, l: usize, family: Family, table: &[u8]) -> Result<Book, Refusal> {
    let mut room = vec![0; room_for(l, table.len())];
    let mut made = sys::make(n, l, family.number(), table, &mut room).given();
    if let Err(Refusal::Room { needed }) = made {
        room.resize(needed, 0);
        made = sys::make(n, l, family.number(), table, &mut room).given();
    }
    let [length, rules, ..] = made?;
    room.truncate(length);
    room.shrink_to_fit();
    Ok(Book {
        bytes: room,
        n,
        l,
        family,
        rules,
    })
}

/// A length that no book of so long a table exceeds, so that one run makes it. To ask for the
/// length first, with no room, would search the table for closure twice.
///
/// A rule of level i has at most two literals for each earlier level and one (left, right) or two
/// (middle) for its own, so 6i bytes, or 3 more; a row has a left and a right rule at each of l
/// levels and one middle rule. A family's rules are never longer.
fn room_for(l: usize, table_length: usize) -> usize {
    let l = l.clamp(1, MOST_SETTINGS);
    let rows = (table_length / l).clamp(1, MOST_ROWS);
    HEAD + rows * (6 * l * (l + 2) + 3) + END
}

/// Makes a book as [`make`] does, at the start of lent room. Bytes past it stay as they were; a
/// refusal, which may be 8 here, writes nothing.
///
/// ```
/// use rulebook::{make_in, Family, Refusal};
///
/// let mut room = [0xff; 20];
/// let book = make_in(4, 1, Family::General, &[0, 3], &mut room)?;
/// assert_eq!(book.as_bytes().len(), 18);
/// assert_eq!(room[18..], [0xff; 2]);
///
/// let refused = make_in(4, 1, Family::General, &[0, 3], &mut room[..17]).unwrap_err();
/// assert_eq!(refused, Refusal::Room { needed: 18 });
/// # Ok::<(), Refusal>(())
/// ```
pub fn make_in<'a>(
    n: usize,
    l: usize,
    family: Family,
    table: &[u8],
    room: &'a mut [u8],
) -> Result<Book<&'a [u8]>, Refusal> {
    let [length, rules, ..] = sys::make(n, l, family.number(), table, room).given()?;
    Ok(Book {
        bytes: &room[..length],
        n,
        l,
        family,
        rules,
    })
}

impl<B: AsRef<[u8]>> Book<B> {
    /// Reads a book, owned or lent; refusals 9 to 15, the first fault from the left.
    ///
    /// ```
    /// use rulebook::{Book, Refusal};
    ///
    /// let bytes = [0x52, 0x42, 3, 2, 0, 0, 1, 0x52, 0x55, 0, 0x52, 0x45];
    /// let lent = Book::read(&bytes)?;
    /// assert_eq!((lent.n(), lent.l(), lent.rules().len()), (3, 2, 1));
    /// let owned = Book::read(bytes.to_vec())?;
    /// assert_eq!(owned.view(), lent.view());
    /// assert_eq!(Book::read(&bytes[..11]), Err(Refusal::Cut { place: 10 }));
    /// # Ok::<(), Refusal>(())
    /// ```
    pub fn read(bytes: B) -> Result<Book<B>, Refusal> {
        let [n, l, family, rules] = sys::read(bytes.as_ref()).given()?;
        Ok(Book {
            bytes,
            n,
            l,
            family: Family::try_from(family)?,
            rules,
        })
    }

    /// Values of each setting.
    pub fn n(&self) -> usize {
        self.n
    }

    /// Settings of a combination.
    pub fn l(&self) -> usize {
        self.l
    }

    /// The family that all rules are in.
    pub fn family(&self) -> Family {
        self.family
    }

    /// The rules, in order.
    pub fn rules(&self) -> Rules<'_> {
        Rules::of(&self.as_bytes()[HEAD..], self.rules)
    }

    /// The rule of a number, as that part of the book itself.
    pub fn rule(&self, number: usize) -> Option<Rule<'_>> {
        let part = sys::rule(self.as_bytes(), number);
        let record = &self.as_bytes()[part.place..part.place + part.length];
        (!record.is_empty()).then_some(Rule::of(record))
    }

    /// Tests a combination: permitted, or the first rule that it does not meet. Refusals 16, 17.
    ///
    /// ```
    /// use rulebook::{make, Family, Refusal, Verdict};
    ///
    /// let book = make(3, 2, Family::General, &[0, 1, 1, 1, 2, 2])?;
    /// assert_eq!(book.test(&[2, 2])?, Verdict::Permitted);
    /// assert_eq!(book.test(&[0, 0])?, Verdict::NotMet { rule: 0 });
    /// assert_eq!(book.test(&[0]), Err(Refusal::Combination));
    /// assert_eq!(book.test(&[0, 3]), Err(Refusal::High { place: 1 }));
    /// # Ok::<(), Refusal>(())
    /// ```
    pub fn test(&self, combination: &[u8]) -> Result<Verdict, Refusal> {
        let [permitted, rule, ..] = sys::test(self.as_bytes(), combination).given()?;
        Ok(match permitted {
            0 => Verdict::NotMet { rule },
            _ => Verdict::Permitted,
        })
    }

    /// Lists the permitted combinations after the cursor, as rows of l bytes at the start of the
    /// room, until the room is full or the steps equal the budget. Refusals 18, 20, 19.
    ///
    /// ```
    /// use rulebook::{make, Cursor, Family};
    ///
    /// let book = make(3, 2, Family::General, &[0, 1, 1, 1, 2, 2])?;
    /// let mut room = [0; 4];
    /// let first = book.page(Cursor::BEGINNING, &mut room, 100)?;
    /// assert_eq!((first.rows, first.steps, first.finished), (2, 7, false));
    /// assert_eq!(room, [0, 1, 1, 1]);
    /// let second = book.page(first.cursor, &mut room, 100)?;
    /// assert_eq!((second.rows, second.steps, second.finished), (1, 5, true));
    /// assert_eq!(room, [2, 2, 1, 1]);
    /// # Ok::<(), rulebook::Refusal>(())
    /// ```
    pub fn page(&self, cursor: Cursor, room: &mut [u8], budget: usize) -> Result<Page, Refusal> {
        let paged = sys::page(self.as_bytes(), cursor, room, budget);
        let [rows, steps, finished, _] = paged.answer.given()?;
        Ok(Page {
            rows,
            steps,
            finished: finished == 1,
            cursor: paged.cursor,
        })
    }

    /// Every permitted combination, ascending.
    ///
    /// ```
    /// use rulebook::{make, Family};
    ///
    /// let book = make(3, 2, Family::Bijunctive, &[0, 1, 1, 1, 2, 2])?;
    /// for combination in book.permitted() {
    ///     assert_ne!(combination[1], 0);
    /// }
    /// assert_eq!(book.permitted().count(), 3);
    /// # Ok::<(), rulebook::Refusal>(())
    /// ```
    pub fn permitted(&self) -> Permitted<'_> {
        Permitted::of(self.view())
    }

    /// The same book, lent.
    pub fn view(&self) -> Book<&[u8]> {
        Book {
            bytes: self.as_bytes(),
            n: self.n,
            l: self.l,
            family: self.family,
            rules: self.rules,
        }
    }

    /// The book in bytes.
    pub fn as_bytes(&self) -> &[u8] {
        self.bytes.as_ref()
    }

    /// The bytes as they were given to be read.
    pub fn into_bytes(self) -> B {
        self.bytes
    }
}

/// The lines that the printing program writes: `book`, n, l, family and number of rules; then
/// `rule`, its number and its literals.
impl<B: AsRef<[u8]>> fmt::Display for Book<B> {
    fn fmt(&self, out: &mut fmt::Formatter) -> fmt::Result {
        let family = self.family.number();
        write!(out, "book {} {} {family} {}", self.n, self.l, self.rules)?;
        for (number, rule) in self.rules().enumerate() {
            write!(out, "\nrule {number}")?;
            for literal in rule.literals() {
                write!(out, " {literal}")?;
            }
        }
        Ok(())
    }
}
