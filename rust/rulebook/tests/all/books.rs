//! Books to read, test and list: written here byte by byte, and damaged ones.

use crate::chance::Chance;
use crate::tables;

/// Setting, sign, bound.
pub type Literal = [u8; 3];

/// The bytes of a book, from what it says; nothing is checked.
pub fn bytes(n: usize, l: usize, family: usize, rules: &[Vec<Literal>]) -> Vec<u8> {
    let mut book = vec![0x52, 0x42, n as u8, l as u8, family as u8];
    book.extend((rules.len() as u16).to_be_bytes());
    for rule in rules {
        book.extend([0x52, 0x55, rule.len() as u8]);
        book.extend(rule.iter().flatten());
    }
    book.extend([0x52, 0x45]);
    book
}

/// A rule with about so many literals, in order and within bounds, not idle, in the family.
pub fn rule(chance: &mut Chance, n: usize, l: usize, family: usize, about: usize) -> Vec<Literal> {
    let mut rule: Vec<Literal> = Vec::new();
    if n == 1 {
        return rule; // no bound is left
    }
    for place in 0..2 * l {
        if !chance.once_in((2 * l).div_ceil(about.max(1))) {
            continue;
        }
        let (setting, sign) = ((place / 2) as u8, (place % 2) as u8);
        let bound = chance.below(n - 1) as u8 + sign;
        let idle = |last: &Literal| last[0] == setting && bound <= last[2];
        let of_sign = rule.iter().filter(|literal| literal[1] == sign).count();
        let outside = match family {
            1 => sign == 1 && of_sign == 1,
            2 => sign == 0 && of_sign == 1,
            3 => rule.len() == 2,
            _ => false,
        };
        if !outside && !rule.last().is_some_and(idle) {
            rule.push([setting, sign, bound]);
        }
    }
    rule
}

/// A sound book of so many rules that is not made from a table.
pub fn typed(chance: &mut Chance, n: usize, l: usize, family: usize, rules: usize) -> Vec<u8> {
    let about = chance.within(2, 6);
    let rules: Vec<_> = (0..rules)
        .map(|_| rule(chance, n, l, family, about))
        .collect();
    bytes(n, l, family, &rules)
}

/// A sound book, typed or made by the second program.
pub fn sound(chance: &mut Chance, n: usize, l: usize) -> Vec<u8> {
    let family = chance.below(4);
    if chance.once_in(2) {
        let rules = chance.within(0, 6);
        return typed(chance, n, l, family, rules);
    }
    let rows = tables::closed(chance, (n, l), family, 3, 100).unwrap_or_default();
    made(n, l, family, &tables::bytes(&rows))
}

/// The second program's book of a closed table.
pub fn made(n: usize, l: usize, family: usize, table: &[u8]) -> Vec<u8> {
    let mut room = vec![0; 1 << 20];
    let made = second::make(n as u64, l as u64, family as u64, table, &mut room).unwrap();
    room.truncate(made.length as usize);
    room
}

/// One change to a book's bytes that reading may or may not see.
pub fn damage(chance: &mut Chance, book: &mut Vec<u8>) {
    if book.is_empty() {
        return;
    }
    let (place, other) = (chance.below(book.len()), chance.below(book.len()));
    match chance.below(9) {
        0 => book.truncate(place),
        1 => book.push(chance.byte()),
        2 => book.insert(place, chance.byte()),
        3 => drop(book.remove(place)),
        4 => book.swap(place, other),
        5 => book[place] = chance.byte(),
        6 => book[place] = book[place].wrapping_add(1),
        7 => book[place] = book[place].wrapping_sub(1),
        // The head is small beside the rules, and most of what can go wrong stands in it.
        _ => book[place % 7] = chance.below(20) as u8,
    }
}
