//! The calls of `include/rulebook.h`, one to one: any numbers and any bytes in, numbers out.
//!
//! All unsafe code of the crate stands here. Each call is total and touches nothing but the buffers
//! it is lent, so the functions below are safe; the rest of the crate gives their numbers names.

use crate::Cursor;

// The archive holds x86-64 code, where C's `uint64_t` and `size_t` are both Rust's `usize`.
#[cfg(not(all(target_arch = "x86_64", target_pointer_width = "64")))]
compile_error!("the rule-book archive links into x86-64 programs only");

/// What a call answers: 0 or the number of a refusal, and what it gives, zero past that.
#[repr(C)]
#[derive(Clone, Copy, Debug, PartialEq, Eq)]
pub struct Answer {
    /// 0 for success, else the number of the refusal.
    pub number: usize,
    /// What the call or the refusal gives, in order.
    pub gives: [usize; 4],
}

/// What a page answers: its answer, and the cursor it reached, the given one on a refusal.
#[repr(C)]
#[derive(Clone, Copy, Debug, PartialEq, Eq)]
pub struct PageAnswer {
    /// Gives the number of rows, of steps, and 1 if the listing is finished.
    pub answer: Answer,
    /// Where the next page goes on.
    pub cursor: Cursor,
}

/// A part of a lent book.
#[repr(C)]
#[derive(Clone, Copy, Debug, PartialEq, Eq)]
pub struct Part {
    /// Where it begins.
    pub place: usize,
    /// How many bytes it has.
    pub length: usize,
}

const _: () = assert!(
    size_of::<Answer>() == 40
        && size_of::<Cursor>() == 24
        && size_of::<PageAnswer>() == 64
        && size_of::<Part>() == 16
);

extern "C" {
    fn rulebook_check(n: usize, l: usize, table: *const u8, table_len: usize) -> Answer;
    fn rulebook_make(
        n: usize,
        l: usize,
        family: usize,
        table: *const u8,
        table_len: usize,
        room: *mut u8,
        room_len: usize,
    ) -> Answer;
    fn rulebook_read(book: *const u8, book_len: usize) -> Answer;
    fn rulebook_rule(book: *const u8, book_len: usize, number: usize) -> Part;
    fn rulebook_test(
        book: *const u8,
        book_len: usize,
        combination: *const u8,
        combination_len: usize,
    ) -> Answer;
    fn rulebook_down(cursor: Cursor, n: usize, l: usize) -> Cursor;
    fn rulebook_along(cursor: Cursor, n: usize, l: usize) -> Cursor;
    fn rulebook_up(cursor: Cursor, n: usize, l: usize) -> Cursor;
    fn rulebook_page(
        book: *const u8,
        book_len: usize,
        cursor: Cursor,
        room: *mut u8,
        room_len: usize,
        budget: usize,
    ) -> PageAnswer;
}

/// Checks a table; gives its number of rows.
pub fn check(n: usize, l: usize, table: &[u8]) -> Answer {
    // SAFETY: the pointer and the length are those of one live slice, which the call only reads.
    // A slice's pointer is never null, and where the slice is empty it is not read through.
    unsafe { rulebook_check(n, l, table.as_ptr(), table.len()) }
}

/// Makes a book at the start of the room; gives its length and its number of rules.
pub fn make(n: usize, l: usize, family: usize, table: &[u8], room: &mut [u8]) -> Answer {
    // SAFETY: as for `check`; the room is borrowed mutably, so it overlaps no other buffer, and the
    // call writes within its length only.
    unsafe {
        rulebook_make(
            n,
            l,
            family,
            table.as_ptr(),
            table.len(),
            room.as_mut_ptr(),
            room.len(),
        )
    }
}

/// Reads a book; gives n, l, family and the number of rules.
pub fn read(book: &[u8]) -> Answer {
    // SAFETY: as for `check`.
    unsafe { rulebook_read(book.as_ptr(), book.len()) }
}

/// Where a rule's record stands in the book: no bytes, at its end, where there is no such rule.
pub fn rule(book: &[u8], number: usize) -> Part {
    // SAFETY: as for `check`.
    unsafe { rulebook_rule(book.as_ptr(), book.len(), number) }
}

/// Tests a combination; gives 1 if it is permitted, else 0 and the first rule not met.
pub fn test(book: &[u8], combination: &[u8]) -> Answer {
    // SAFETY: as for `check`, for both slices; the call writes to neither.
    unsafe {
        rulebook_test(
            book.as_ptr(),
            book.len(),
            combination.as_ptr(),
            combination.len(),
        )
    }
}

/// The prefix one longer that ends in 0.
pub fn down(cursor: Cursor, n: usize, l: usize) -> Cursor {
    // SAFETY: numbers alone, by value; the call takes any.
    unsafe { rulebook_down(cursor, n, l) }
}

/// The next value at the cursor's last place.
pub fn along(cursor: Cursor, n: usize, l: usize) -> Cursor {
    // SAFETY: as for `down`.
    unsafe { rulebook_along(cursor, n, l) }
}

/// The prefix one shorter.
pub fn up(cursor: Cursor, n: usize, l: usize) -> Cursor {
    // SAFETY: as for `down`.
    unsafe { rulebook_up(cursor, n, l) }
}

/// Writes a page of permitted combinations at the start of the room.
pub fn page(book: &[u8], cursor: Cursor, room: &mut [u8], budget: usize) -> PageAnswer {
    // SAFETY: as for `make`; the cursor is numbers by value.
    unsafe {
        rulebook_page(
            book.as_ptr(),
            book.len(),
            cursor,
            room.as_mut_ptr(),
            room.len(),
            budget,
        )
    }
}
