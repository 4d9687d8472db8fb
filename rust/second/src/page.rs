//! Lists the permitted combinations page by page.

use std::ops::ControlFlow;

use crate::book::Book;
use crate::cursor::Cursor;
use crate::limits::MOST_STEPS;
use crate::refusal::Refusal;
use crate::rule::Rule;

/// What a page tells besides the rows it wrote and the cursor it reached.
#[derive(Clone, Copy, Debug, PartialEq, Eq)]
pub struct Page {
    /// Rows written.
    pub rows: u64,
    /// Prefixes visited.
    pub steps: u64,
    /// Whether no visited prefix comes after the cursor.
    pub finished: bool,
}

/// Visits the visited prefixes after the cursor, in order, and writes the rows among them.
///
/// Refusals are book faults, 18, 20, 19 in this order. The cursor given back is the last prefix
/// visited; on a refusal, or where none was visited, it is the given one.
pub fn page(
    book: &[u8],
    cursor: Cursor,
    room: &mut [u8],
    budget: u64,
) -> (Result<Page, Refusal>, Cursor) {
    match listed(book, &cursor, room, budget) {
        Ok((page, reached)) => (Ok(page), reached.unwrap_or(cursor)),
        Err(refusal) => (Err(refusal), cursor),
    }
}

fn listed(
    book: &[u8],
    cursor: &Cursor,
    room: &mut [u8],
    budget: u64,
) -> Result<(Page, Option<Cursor>), Refusal> {
    let book = Book::read(book)?;
    let head = book.head();
    let after = cursor.prefix(head.n, head.l).ok_or(Refusal::BadCursor)?;
    if room.len() < book.l() {
        return Err(Refusal::RowRoom);
    }
    if !(1..=MOST_STEPS).contains(&budget) {
        return Err(Refusal::Budget);
    }
    let mut walk = Walk {
        n: book.n(),
        l: book.l(),
        decided: (0..=book.l())
            .map(|length| rules_reaching(&book, length))
            .collect(),
        budget,
        steps: 0,
        free: room.chunks_exact_mut(book.l()),
        rows: 0,
        reached: None,
    };
    let finished = walk.below(&mut Vec::new(), after).is_continue();
    let page = Page {
        rows: walk.rows,
        steps: walk.steps,
        finished,
    };
    Ok((page, walk.reached))
}

fn rules_reaching(book: &Book, length: usize) -> Vec<&Rule> {
    let rules = book.rules().iter();
    rules.filter(|rule| rule.reach() == length).collect()
}

struct Walk<'a> {
    n: u8,
    l: usize,
    /// At each length, the rules whose settings a prefix of that length is the first to hold all.
    decided: Vec<Vec<&'a Rule>>,
    budget: u64,
    steps: u64,
    /// The room not yet written, a row at a time.
    free: std::slice::ChunksExactMut<'a, u8>,
    rows: u64,
    reached: Option<Cursor>,
}

impl Walk<'_> {
    /// Visits what lies below a prefix whose shorter prefixes are all live; breaks off when the
    /// page has ended and a visited prefix is left.
    ///
    /// `after` is what the cursor has beyond the prefix, or nothing where the whole walk below
    /// comes after the cursor.
    fn below(&mut self, prefix: &mut Vec<u8>, after: &[u8]) -> ControlFlow<()> {
        if prefix.len() == self.l || self.dead(prefix) {
            return ControlFlow::Continue(());
        }
        let mut first = 0;
        if let Some((value, further)) = after.split_first() {
            // The cursor and the prefixes of it do not come after it, but some below them may.
            prefix.push(*value);
            self.below(prefix, further)?;
            prefix.pop();
            first = value + 1;
        }
        for value in first..self.n {
            prefix.push(value);
            self.visit(prefix)?;
            self.below(prefix, &[])?;
            prefix.pop();
        }
        ControlFlow::Continue(())
    }

    /// One step, unless the page has ended: then this prefix is one that is left.
    fn visit(&mut self, prefix: &[u8]) -> ControlFlow<()> {
        if self.steps == self.budget || self.free.len() == 0 {
            return ControlFlow::Break(());
        }
        self.steps += 1;
        self.reached = Some(Cursor::at(prefix));
        if prefix.len() == self.l && !self.dead(prefix) {
            if let Some(row) = self.free.next() {
                row.copy_from_slice(prefix);
                self.rows += 1;
            }
        }
        ControlFlow::Continue(())
    }

    /// Whether a prefix is dead whose shorter prefixes are all live: no rule decided at a shorter
    /// length can then be the one that fails.
    fn dead(&self, prefix: &[u8]) -> bool {
        let mut decided = self.decided[prefix.len()].iter();
        decided.any(|rule| !rule.met_by(prefix))
    }
}
