//! The library measured beside the second program and, for listings, Gecode and clasp.
//!
//! Every line is one race on one input, and what the contenders answer must agree.

mod chance;
mod clasp;
mod gecode;
mod inputs;
mod listing;
mod report;
mod stack;

use std::hint::black_box;

use rulebook::{make, make_in, Book, Verdict, MOST_STEPS};

use crate::inputs::Table;
use crate::listing::{by_library, by_second, Pages};
use crate::report::{amount, conditions, heading, line, race, Best, Contender};

/// Pages of few steps that are listed in one turn.
const MOST_PAGES: usize = 100;

fn main() {
    conditions();
    let tables = inputs::tables();
    let made: Vec<Book> = tables.iter().map(book_of).collect();
    let both = || tables.iter().zip(&made);
    heading("making", &["second"]);
    both().for_each(|(table, book)| making(table, book));
    heading("reading", &["second"]);
    both().for_each(|(table, book)| reading(table, book));
    heading("testing a row, which meets every rule", &["second"]);
    both().for_each(|(table, book)| testing(table, book));
    let typed = Book::read(inputs::typed()).expect("a sound book");
    let mut books: Vec<_> = both()
        .map(|(table, book)| (table.name, book.view()))
        .collect();
    books.push(("typed, 6 rules, n 10 l 6", typed.view()));
    let contenders = ["second", "Gecode", "its search", "clasp", "it reports"];
    heading("listing whole", &contenders);
    books.iter().for_each(|(name, book)| listing(name, *book));
    for (call, budget) in [("a page of one step", 1), ("a page of 64 steps", 64)] {
        heading(call, &["second"]);
        books
            .iter()
            .for_each(|(name, book)| paging(name, *book, budget));
    }
    heading("stack of a page, painted", &[]);
    for (name, book) in &books {
        amount(name, stack::of_page(*book));
    }
}

fn book_of(table: &Table) -> Book {
    make(table.n, table.l, table.family, &table.bytes).expect("a closed table")
}

fn making(table: &Table, book: &Book) {
    let (n, l, family) = (table.n, table.l, table.family);
    let mut ours = vec![1; 1 << 20];
    let mut theirs = ours.clone();
    let [library, second] = race([
        Contender::new(|| {
            make_in(n, l, family, black_box(&table.bytes), &mut ours).map(|book| book.l())
        }),
        Contender::new(|| {
            let (n, l, family) = (n as u64, l as u64, family.number() as u64);
            second::make(n, l, family, black_box(&table.bytes), &mut theirs)
        }),
    ]);
    assert!(ours == theirs && ours.starts_with(book.as_bytes()));
    let (rows, rules) = (table.rows(), book.rules().len());
    let input = format!("{}: {rows} rows, {rules} rules", table.name);
    line(&input, library, &[second]);
}

fn reading(table: &Table, book: &Book) {
    let bytes = book.as_bytes();
    let [library, second] = race([
        Contender::new(|| Book::read(black_box(bytes))),
        Contender::new(|| second::read(black_box(bytes))),
    ]);
    let input = format!("{}: {} bytes", table.name, bytes.len());
    line(&input, library, &[second]);
}

fn testing(table: &Table, book: &Book) {
    let bytes = book.as_bytes();
    let row = &table.bytes[table.rows() / 2 * table.l..][..table.l];
    assert_eq!(book.test(row), Ok(Verdict::Permitted));
    assert_eq!(second::test(bytes, row), Ok(second::Tested::Permitted));
    let [library, second] = race([
        Contender::new(|| book.test(black_box(row))),
        Contender::new(|| second::test(bytes, black_box(row))),
    ]);
    line(table.name, library, &[second]);
}

fn listing(name: &str, book: Book<&[u8]>) {
    let mut ours = Pages::new(book.l(), usize::MAX, by_library(book, MOST_STEPS));
    let mut theirs = Pages::new(book.l(), usize::MAX, by_second(book, MOST_STEPS));
    let due = ours.check();
    assert_eq!(theirs.check(), due);
    let (count, rows) = (due.count, due.count.rows as u64);
    let by_gecode = gecode::check(&book);
    assert_eq!((by_gecode.rows, by_gecode.checksum), (rows, due.checksum));
    let encoding = clasp::Encoding::new(&book);
    let (mut searched, mut reported) = (f64::INFINITY, f64::INFINITY);
    let [library, second, gecode, clasp] = race([
        Contender::new(|| assert_eq!(ours.count(), count)),
        Contender::new(|| assert_eq!(theirs.count(), count)),
        Contender::new(|| {
            let listed = gecode::count(&book);
            assert_eq!(listed.rows, rows);
            searched = searched.min(listed.search);
        }),
        Contender::new(|| {
            let answer = encoding.ask();
            assert_eq!(answer.models, rows);
            reported = reported.min(answer.time);
        }),
    ]);
    let search = Best {
        time: searched,
        ..gecode
    };
    let report = Best {
        time: reported,
        rough: true,
        ..clasp
    };
    let input = format!("{name}: {rows} rows");
    line(&input, library, &[second, gecode, search, clasp, report]);
}

/// The mean time of a page, over the first ones.
fn paging(name: &str, book: Book<&[u8]>, budget: usize) {
    let mut ours = Pages::new(book.l(), MOST_PAGES, by_library(book, budget));
    let mut theirs = Pages::new(book.l(), MOST_PAGES, by_second(book, budget));
    let due = ours.check();
    assert_eq!(theirs.check(), due);
    let pages = due.count.pages;
    let means = race([
        Contender::new(|| assert_eq!(ours.count(), due.count)),
        Contender::new(|| assert_eq!(theirs.count(), due.count)),
    ]);
    let [library, second] = means.map(|best| Best {
        time: best.time / pages as f64,
        ..best
    });
    let input = format!("{name}: {pages} pages");
    line(&input, library, &[second]);
}
