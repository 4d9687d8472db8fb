//! A whole book listed with Gecode, by gecode.cpp.

use rulebook::Book;

/// What the lister answers.
#[repr(C)]
pub struct Listed {
    pub rows: u64,
    /// 0 where it was not asked for.
    pub checksum: u64,
    /// Seconds, without making the model.
    pub search: f64,
}

extern "C" {
    fn gecode_list(book: *const u8, check: bool) -> Listed;
}

/// Counts the rows: what is timed.
pub fn count(book: &Book<&[u8]>) -> Listed {
    list(book, false)
}

/// Counts the rows and makes their checksum.
pub fn check(book: &Book<&[u8]>) -> Listed {
    list(book, true)
}

fn list(book: &Book<&[u8]>, check: bool) -> Listed {
    // SAFETY: the lister only reads, as far as the head and the records' counts say, and the bytes
    // of an accepted book are as many as these say.
    unsafe { gecode_list(book.as_bytes().as_ptr(), check) }
}
