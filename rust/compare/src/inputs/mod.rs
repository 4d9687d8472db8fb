//! What the groups ask about: tables, books, combinations and cursors.

pub mod books;
pub mod cursors;
pub mod tables;

/// Numbers that are wide, or look small to who keeps fewer than 64 bits.
pub const WIDE: [u64; 8] = [
    (1 << 16) + 1,
    u32::MAX as u64,
    1 << 32,
    (1 << 32) + 1,
    (1 << 32) + 2,
    (1 << 63) - 1,
    1 << 63,
    u64::MAX,
];

/// The last `places` digits of a number, the last one at the right.
pub fn digits(number: u64, base: u64, places: u64) -> Vec<u8> {
    let mut rest = number;
    let mut digits: Vec<u8> = (0..places)
        .map(|_| {
            let digit = rest % base;
            rest /= base;
            digit as u8
        })
        .collect();
    digits.reverse();
    digits
}

/// All combinations of so many values a setting and so many settings, ascending.
pub fn combinations(values: u64, settings: u64) -> impl Iterator<Item = Vec<u8>> {
    (0..values.pow(settings as u32)).map(move |number| digits(number, values, settings))
}
