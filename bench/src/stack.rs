//! The stack that a page takes: painted before the call, and looked at after it.

use std::arch::asm;
use std::hint::black_box;
use std::mem::MaybeUninit;
use std::ptr;
use std::thread;

use rulebook::{Book, Cursor, MOST_STEPS};

use crate::listing::ROOM;

/// Bytes of the stack of the thread that the page is called on.
const STACK: usize = 256 * 1024;
/// Bytes of it that are painted.
const PAINTED: usize = 128 * 1024;
const PAINT: u8 = 0xa5;

/// Bytes that a page takes below its caller's frame, from the first row on, with the most steps.
pub fn of_page(book: Book<&[u8]>) -> usize {
    let mut room = vec![1; ROOM];
    let first = book.permitted().next().expect("a row");
    let cursor = Cursor::at(&first).expect("a row is a prefix");
    thread::scope(|scope| {
        thread::Builder::new()
            .stack_size(STACK)
            .spawn_scoped(scope, || taken(book, cursor, &mut room))
            .expect("a thread")
            .join()
            .expect("a sound call")
    })
}

/// The caller: from its frame on it is counted.
#[inline(never)]
fn taken(book: Book<&[u8]>, cursor: Cursor, room: &mut [u8]) -> usize {
    let frame: usize;
    // SAFETY: reads a register, and nothing else.
    unsafe { asm!("mov {}, rsp", out(reg) frame, options(nomem, nostack, preserves_flags)) };
    let lowest = paint();
    black_box(book.page(cursor, room, MOST_STEPS)).expect("a sound call");
    let deepest = (lowest..frame).find(|place| !painted(*place));
    let deepest = deepest.expect("a call leaves its return address");
    assert!(deepest > lowest, "the page goes deeper than the paint");
    frame - deepest
}

/// Paints the stack from the caller's frame down; gives the lowest place painted.
///
/// What is painted is a local, so it is part of the stack, and nothing that is in use.
#[inline(never)]
fn paint() -> usize {
    let mut local = MaybeUninit::<[u8; PAINTED]>::uninit();
    let lowest: *mut u8 = local.as_mut_ptr().cast();
    for place in 0..PAINTED {
        // SAFETY: within the local. Volatile, so that it is written though nobody reads it here.
        unsafe { lowest.add(place).write_volatile(PAINT) };
    }
    lowest.expose_provenance()
}

fn painted(place: usize) -> bool {
    // SAFETY: the place is between what was painted and the caller's frame, so on this thread's
    // stack, which stays mapped. Volatile, so that the byte is taken as it is found.
    unsafe { ptr::with_exposed_provenance::<u8>(place).read_volatile() == PAINT }
}
