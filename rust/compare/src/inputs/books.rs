//! Books: written byte by byte, drawn by chance, and damaged.

use crate::chance::Chance;

/// Setting, sign, bound.
pub type Literal = [u8; 3];

/// The bytes of a book, from what it says; nothing is checked.
pub fn written(n: u64, l: u64, family: u64, rules: &[Vec<Literal>]) -> Vec<u8> {
    let mut book = vec![0x52, 0x42, n as u8, l as u8, family as u8];
    book.extend((rules.len() as u16).to_be_bytes());
    for rule in rules {
        book.extend([0x52, 0x55, rule.len() as u8]);
        book.extend(rule.iter().flatten());
    }
    book.extend([0x52, 0x45]);
    book
}

/// Six small books: document 01's P1 to P4, which are table T in the four families; P6, which is no
/// rows; and one rule "at most 3 or at least 4".
pub fn base() -> Vec<Vec<u8>> {
    let p1 = [
        vec![[0, 1, 1], [1, 1, 1]],
        vec![[0, 1, 1], [1, 0, 1]],
        vec![[0, 0, 0], [0, 1, 2], [1, 1, 1]],
        vec![[0, 0, 0], [0, 1, 2], [1, 0, 1]],
        vec![[0, 0, 1], [1, 1, 2]],
    ];
    let (mut p2, mut p3, mut p4) = (p1.clone(), p1.clone(), p1.clone());
    p2[0] = vec![[1, 1, 1]];
    p2[2] = vec![[0, 0, 0], [1, 1, 1]];
    p3[3] = vec![[0, 1, 2], [1, 0, 1]];
    p4[0] = vec![[1, 1, 1]];
    p4[2] = vec![[1, 1, 1]];
    p4[3] = vec![[0, 1, 2], [1, 0, 1]];
    vec![
        written(3, 2, 0, &p1),
        written(3, 2, 1, &p2),
        written(3, 2, 2, &p3),
        written(3, 2, 3, &p4),
        written(3, 2, 0, &[vec![]]),
        written(6, 1, 0, &[vec![[0, 0, 3], [0, 1, 4]]]),
    ]
}

/// A small book by chance, with bounds that may be out of range and rules outside the family.
pub fn loose(chance: &mut Chance) -> Vec<u8> {
    let (n, l) = (1 + chance.pick(4), 1 + chance.pick(3));
    let family = chance.pick(4);
    let count = chance.pick(6);
    let mut rules = Vec::new();
    for _ in 0..count {
        let mut rule = Vec::new();
        for setting in 0..l as u8 {
            for sign in [0, 1] {
                if chance.once_in(3) {
                    rule.push([setting, sign, chance.byte(n + 1)]);
                }
            }
        }
        rules.push(rule);
    }
    written(n, l, family, &rules)
}

/// A sound book by chance.
pub fn sound(chance: &mut Chance, n: u64, l: u64, rules: u64) -> Vec<u8> {
    let (family, about) = (chance.pick(4), chance.within(2, 6));
    let rules: Vec<_> = (0..rules)
        .map(|_| rule(chance, (n, l), family, about))
        .collect();
    written(n, l, family, &rules)
}

/// A rule with about so many literals, in order and within bounds, not idle, in the family.
fn rule(chance: &mut Chance, (n, l): (u64, u64), family: u64, about: u64) -> Vec<Literal> {
    let mut rule: Vec<Literal> = Vec::new();
    for place in 0..2 * l {
        // With n 1 no bound is left.
        if n == 1 || !chance.once_in((2 * l).div_ceil(about)) {
            continue;
        }
        let (setting, sign) = ((place / 2) as u8, (place % 2) as u8);
        let bound = chance.byte(n - 1) + sign;
        let idle = |last: &Literal| last[0] == setting && bound <= last[2];
        let of_sign = rule.iter().filter(|literal| literal[1] == sign).count();
        let outside = match family {
            1 => sign == 1 && of_sign == 1,
            2 => sign == 0 && of_sign == 1,
            3 => rule.len() == 2,
            _ => false,
        };
        if !outside && !rule.last().is_some_and(idle) {
            rule.push([setting, sign, bound]);
        }
    }
    rule
}

/// One change that reading may or may not see.
pub fn damage(chance: &mut Chance, book: &mut Vec<u8>) {
    if book.is_empty() {
        return;
    }
    let (place, other) = (chance.place(book.len()), chance.place(book.len()));
    match chance.pick(9) {
        0 => book.truncate(place),
        1 => book.push(chance.byte(256)),
        2 => book.insert(place, chance.byte(256)),
        3 => drop(book.remove(place)),
        4 => book.swap(place, other),
        5 => book[place] = chance.byte(256),
        6 => book[place] = book[place].wrapping_add(1),
        7 => book[place] = book[place].wrapping_sub(1),
        // The head is small beside the rules, and most of what can go wrong stands in it.
        _ => book[place % 7] = chance.byte(20),
    }
}

#[cfg(test)]
mod tests {
    use super::base;
    use crate::inputs::tables::Table;

    #[test]
    fn base_books_are_those_made() {
        let tables = [Table::t(), Table::new(3, 2, [])];
        let made = [(0, 0), (0, 1), (0, 2), (0, 3), (1, 0)];
        for ((table, family), book) in made.into_iter().zip(base()) {
            let (table, mut room) = (&tables[table], vec![0; book.len()]);
            let made = second::make(table.n, table.l, family, &table.bytes, &mut room);
            assert_eq!(made.map(|made| made.length), Ok(book.len() as u64));
            assert_eq!(room, book);
        }
    }
}
