//! Runs to leave out and numbers to try, the boldest first.

use std::ops::Range;

/// Halvings after which a run is a large part of the whole, and those after which it is a small one.
pub const BOLD: Range<u32> = 0..4;
pub const FINE: Range<u32> = 4..usize::BITS;

/// Runs of so many things: all of them or, halved once, each half, and so on down to each one.
pub fn runs(count: usize, halvings: Range<u32>) -> impl Iterator<Item = Range<usize>> {
    halvings
        .map(move |halvings| count >> halvings)
        .take_while(|size| *size > 0)
        .flat_map(move |size| {
            let starts = (0..count).step_by(size);
            starts.map(move |start| start..(start + size).min(count))
        })
}

/// Numbers below a number: 0, then ever closer to it.
pub fn below(number: u64) -> impl Iterator<Item = u64> {
    (0..u64::BITS)
        .map(move |halvings| number >> halvings)
        .take_while(|less| *less > 0)
        .map(move |less| number - less)
}

#[cfg(test)]
mod tests {
    use super::*;

    #[test]
    fn runs_of_things() {
        assert_eq!(runs(0, BOLD).count(), 0);
        assert!(runs(3, BOLD).eq([0..3, 0..1, 1..2, 2..3]));
        assert!(runs(5, 1..9).eq([0..2, 2..4, 4..5, 0..1, 1..2, 2..3, 3..4, 4..5]));
        assert_eq!(runs(100, BOLD).count(), 1 + 2 + 4 + 9);
        assert_eq!(runs(100, FINE).last(), Some(99..100));
    }

    #[test]
    fn numbers_below() {
        assert_eq!(below(0).count(), 0);
        assert!(below(1).eq([0]));
        assert!(below(9).eq([0, 5, 7, 8]));
        assert_eq!(below(u64::MAX).last(), Some(u64::MAX - 1));
    }
}
