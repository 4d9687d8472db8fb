//! What the tests measure by: the definitions again, by plain enumeration, and chance.
//!
//! Nothing here calls the library except where a function's name says so.

use second::Refusal;

/// A literal as the three bytes it has in a book: setting, sign, bound.
pub type Literal = (u8, u8, u8);
/// A rule as its literals.
pub type Rule = Vec<Literal>;

/// A small generator whose numbers are the same at every run.
pub struct Chance(u64);

impl Chance {
    pub fn new(seed: u64) -> Chance {
        Chance(seed)
    }

    fn next(&mut self) -> u64 {
        self.0 = self.0.wrapping_add(0x9e37_79b9_7f4a_7c15);
        let mut mixed = self.0;
        mixed = (mixed ^ (mixed >> 30)).wrapping_mul(0xbf58_476d_1ce4_e5b9);
        mixed = (mixed ^ (mixed >> 27)).wrapping_mul(0x94d0_49bb_1331_11eb);
        mixed ^ (mixed >> 31)
    }

    /// A number from 0 to `limit` - 1.
    pub fn below(&mut self, limit: usize) -> usize {
        (self.next() % limit as u64) as usize
    }

    pub fn byte(&mut self) -> u8 {
        self.below(256) as u8
    }
}

/// Every n and l the random tests go through.
pub fn small_sizes() -> impl Iterator<Item = (u8, usize)> {
    (1..=4).flat_map(|n| (1..=4).map(move |l| (n, l)))
}

/// All combinations, ascending.
pub fn combinations(n: u8, l: usize) -> Vec<Vec<u8>> {
    (0..l).fold(vec![vec![]], |shorter, _| {
        shorter
            .iter()
            .flat_map(|prefix| (0..n).map(move |value| [&prefix[..], &[value]].concat()))
            .collect()
    })
}

/// All prefixes of length 0 to l, in the order of prefixes.
pub fn prefixes(n: u8, l: usize) -> Vec<Vec<u8>> {
    let mut all: Vec<Vec<u8>> = (0..=l).flat_map(|length| combinations(n, length)).collect();
    all.sort();
    all
}

pub fn met(rule: &[Literal], values: &[u8]) -> bool {
    rule.iter().any(|&(setting, sign, bound)| {
        let value = values[usize::from(setting)];
        if sign == 0 {
            value <= bound
        } else {
            value >= bound
        }
    })
}

pub fn dead(rules: &[Rule], prefix: &[u8]) -> bool {
    rules.iter().any(|rule| {
        let within = rule
            .iter()
            .all(|&(setting, _, _)| usize::from(setting) < prefix.len());
        within && !met(rule, prefix)
    })
}

/// The visited prefixes, in order.
pub fn visited(n: u8, l: usize, rules: &[Rule]) -> Vec<Vec<u8>> {
    let mut all = prefixes(n, l);
    all.retain(|prefix| !prefix.is_empty() && !dead(rules, &prefix[..prefix.len() - 1]));
    all
}

/// The combinations that meet all rules, ascending.
pub fn permitted(n: u8, l: usize, rules: &[Rule]) -> Vec<Vec<u8>> {
    let mut all = combinations(n, l);
    all.retain(|combination| rules.iter().all(|rule| met(rule, combination)));
    all
}

pub fn in_family(family: u64, rule: &[Literal]) -> bool {
    let positive = rule.iter().filter(|literal| literal.1 == 1).count();
    match family {
        0 => true,
        1 => positive <= 1,
        2 => rule.len() - positive <= 1,
        _ => rule.len() <= 2,
    }
}

pub fn encode(n: u8, l: usize, family: u64, rules: &[Rule]) -> Vec<u8> {
    let count = rules.len();
    let mut bytes = vec![0x52, 0x42, n, l as u8, family as u8];
    bytes.extend([(count / 256) as u8, (count % 256) as u8]);
    for rule in rules {
        bytes.extend([0x52, 0x55, rule.len() as u8]);
        bytes.extend(rule.iter().flat_map(|&(a, b, c)| [a, b, c]));
    }
    bytes.extend([0x52, 0x45]);
    bytes
}

/// The rules of a book known to be sound.
pub fn decode(book: &[u8]) -> Vec<Rule> {
    let mut rest = &book[7..];
    let mut rules = Vec::new();
    while rest[..2] == [0x52, 0x55] {
        let (literals, after) = rest[3..].split_at(3 * usize::from(rest[2]));
        rules.push(literals.chunks(3).map(|c| (c[0], c[1], c[2])).collect());
        rest = after;
    }
    assert_eq!(rest, [0x52, 0x45]);
    rules
}

/// The places of the rules' marks, and after them that of the end mark.
pub fn mark_places(rules: &[Rule]) -> Vec<usize> {
    let mut places = vec![7];
    for rule in rules {
        places.push(places[places.len() - 1] + 3 + 3 * rule.len());
    }
    places
}

/// Rules as text, such as `[0>=1 1>=1] [0<=0]`.
pub fn text(rules: &[Rule]) -> String {
    let rule_text = |rule: &Rule| {
        let literals: Vec<String> = rule
            .iter()
            .map(|(setting, sign, bound)| {
                format!("{setting}{}{bound}", if *sign == 0 { "<=" } else { ">=" })
            })
            .collect();
        format!("[{}]", literals.join(" "))
    };
    rules.iter().map(rule_text).collect::<Vec<_>>().join(" ")
}

/// The book the library makes, in a room of exactly its length or more.
pub fn library_book(n: u64, l: u64, family: u64, table: &[u8]) -> Result<Vec<u8>, Refusal> {
    let mut room = vec![0; 100_000];
    let made = second::make(n, l, family, table, &mut room)?;
    room.truncate(made.length as usize);
    assert_eq!(made.rules, decode(&room).len() as u64);
    Ok(room)
}

/// The refusal's number and values.
pub fn told<T: std::fmt::Debug>(answer: Result<T, Refusal>) -> (u64, Vec<u64>) {
    let refusal = answer.expect_err("a refusal is due");
    (refusal.number(), refusal.values())
}

/// A random table, as ascending rows: nearly none, some, half or nearly all combinations.
pub fn random_rows(chance: &mut Chance, n: u8, l: usize) -> Vec<Vec<u8>> {
    let share = [1, 4, 16, 28][chance.below(4)];
    let mut rows = combinations(n, l);
    rows.retain(|_| chance.below(32) < share);
    rows
}

/// The rows with enough of them left out to be at most `count`.
pub fn thinned(chance: &mut Chance, mut rows: Vec<Vec<u8>>, count: usize) -> Vec<Vec<u8>> {
    while rows.len() > count {
        rows.remove(chance.below(rows.len()));
    }
    rows
}

/// A random rule that is not idle and is in the family.
pub fn random_rule(chance: &mut Chance, n: u8, l: usize, family: u64) -> Rule {
    loop {
        let share = 1 + chance.below(3);
        let mut rule = Rule::new();
        for setting in 0..l as u8 {
            let low = (n > 1 && chance.below(4) < share)
                .then(|| (setting, 0, chance.below(usize::from(n) - 1) as u8));
            let high = (n > 1 && chance.below(4) < share)
                .then(|| (setting, 1, 1 + chance.below(usize::from(n) - 1) as u8));
            match (low, high) {
                (Some(low), Some(high)) if high.2 <= low.2 => rule.push(low),
                _ => rule.extend(low.into_iter().chain(high)),
            }
        }
        if in_family(family, &rule) {
            return rule;
        }
    }
}

/// Random rules of a typed book, mostly with few short rules so that something is permitted.
pub fn random_rules(chance: &mut Chance, n: u8, l: usize, family: u64) -> Vec<Rule> {
    let most = 1 + chance.below(8);
    let count = chance.below(most + 1);
    let rules = (0..count).map(|_| random_rule(chance, n, l, family));
    let rules: Vec<Rule> = rules.collect();
    let empty_too = chance.below(12) == 0;
    rules
        .into_iter()
        .filter(|rule| empty_too || !rule.is_empty())
        .collect()
}
