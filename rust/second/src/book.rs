//! The book in bytes: the writer, the reader with its refusals, and a rule's part of the book.

use std::ops::Range;

use crate::family::Family;
use crate::limits::{MOST_RULES, MOST_VALUES, MOST_WIDTH};
use crate::literal::{Literal, Sign};
use crate::refusal::Refusal;
use crate::rule::Rule;

const HEAD_MARK: [u8; 2] = [0x52, 0x42];
const RULE_MARK: [u8; 2] = [0x52, 0x55];
const END_MARK: [u8; 2] = [0x52, 0x45];

/// What the head of a book says.
#[derive(Clone, Copy, Debug, PartialEq, Eq)]
pub struct Head {
    /// Values per setting.
    pub n: u64,
    /// Settings per row.
    pub l: u64,
    /// The family's number.
    pub family: u64,
    /// Number of rules.
    pub rules: u64,
}

/// A book taken out of its bytes.
#[derive(Clone, Debug, PartialEq, Eq)]
pub struct Book {
    n: u8,
    l: usize,
    family: Family,
    rules: Vec<Rule>,
}

impl Book {
    /// A book whose head and rules the maker knows to be sound.
    pub(crate) fn new(n: u8, l: usize, family: Family, rules: Vec<Rule>) -> Book {
        Book {
            n,
            l,
            family,
            rules,
        }
    }

    /// Reads a book; refusals 9 to 15, the first fault from the left.
    pub fn read(bytes: &[u8]) -> Result<Book, Refusal> {
        read_with_parts(bytes).map(|(book, _)| book)
    }

    /// Values per setting.
    pub fn n(&self) -> u8 {
        self.n
    }

    /// Settings per row.
    pub fn l(&self) -> usize {
        self.l
    }

    /// The family all rules are in.
    pub fn family(&self) -> Family {
        self.family
    }

    /// The rules, in their order.
    pub fn rules(&self) -> &[Rule] {
        &self.rules
    }

    /// What the head says.
    pub fn head(&self) -> Head {
        Head {
            n: u64::from(self.n),
            l: self.l as u64,
            family: u64::from(self.family.number()),
            rules: self.rules.len() as u64,
        }
    }

    /// The book in bytes.
    pub fn bytes(&self) -> Vec<u8> {
        let mut bytes = HEAD_MARK.to_vec();
        bytes.extend([self.n, self.l as u8, self.family.number()]);
        bytes.extend((self.rules.len() as u16).to_be_bytes());
        for rule in &self.rules {
            bytes.extend(RULE_MARK);
            bytes.push(rule.literals().len() as u8);
            for literal in rule.literals() {
                bytes.extend([literal.setting, literal.sign.byte(), literal.bound]);
            }
        }
        bytes.extend(END_MARK);
        bytes
    }
}

/// Reads a book and gives what its head says.
pub fn read(book: &[u8]) -> Result<Head, Refusal> {
    Book::read(book).map(|book| book.head())
}

/// The part of the book that holds one rule's mark, count and literals; where no rule has the
/// number, or the book has a fault, no bytes at the book's end.
pub fn rule(book: &[u8], number: u64) -> Range<usize> {
    let nothing = book.len()..book.len();
    let (Ok((_, parts)), Ok(number)) = (read_with_parts(book), usize::try_from(number)) else {
        return nothing;
    };
    parts.get(number).cloned().unwrap_or(nothing)
}

fn read_with_parts(bytes: &[u8]) -> Result<(Book, Vec<Range<usize>>), Refusal> {
    let mut reader = Reader::new(bytes);
    reader.mark(HEAD_MARK)?;
    let n = reader.byte(1..MOST_VALUES as u8 + 1)?;
    let l = reader.byte(1..MOST_WIDTH as u8 + 1)?;
    let family = reader.family()?;
    let count = reader.two_bytes(0..MOST_RULES as u16 + 1)?;
    let mut rules = Vec::new();
    let mut parts = Vec::new();
    for _ in 0..count {
        let start = reader.at;
        rules.push(reader.rule(n, l, family)?);
        parts.push(start..reader.at);
    }
    reader.mark(END_MARK)?;
    reader.nothing_more()?;
    Ok((Book::new(n, usize::from(l), family, rules), parts))
}

/// Takes fields off the left of a book.
struct Reader<'a> {
    bytes: &'a [u8],
    at: usize,
    /// Place of the mark of the record being read, which a cut within the record names.
    record: usize,
}

impl<'a> Reader<'a> {
    fn new(bytes: &'a [u8]) -> Reader<'a> {
        Reader {
            bytes,
            at: 0,
            record: 0,
        }
    }

    fn take<const SIZE: usize>(&mut self) -> Result<[u8; SIZE], Refusal> {
        let field = self.bytes[self.at..].first_chunk::<SIZE>();
        let field = field.ok_or(Refusal::CutShort {
            place: self.record as u64,
        })?;
        self.at += SIZE;
        Ok(*field)
    }

    fn mark(&mut self, due: [u8; 2]) -> Result<(), Refusal> {
        self.record = self.at;
        if self.take()? == due {
            Ok(())
        } else {
            let place = self.record as u64;
            Err(Refusal::WrongMark { place })
        }
    }

    fn byte(&mut self, range: Range<u8>) -> Result<u8, Refusal> {
        let place = self.at as u64;
        let [value] = self.take()?;
        if range.contains(&value) {
            Ok(value)
        } else {
            Err(Refusal::FieldRange { place })
        }
    }

    fn two_bytes(&mut self, range: Range<u16>) -> Result<u16, Refusal> {
        let place = self.at as u64;
        let value = u16::from_be_bytes(self.take()?);
        if range.contains(&value) {
            Ok(value)
        } else {
            Err(Refusal::FieldRange { place })
        }
    }

    fn family(&mut self) -> Result<Family, Refusal> {
        let place = self.at as u64;
        let [number] = self.take()?;
        Family::numbered(u64::from(number)).ok_or(Refusal::FieldRange { place })
    }

    fn sign(&mut self) -> Result<Sign, Refusal> {
        match self.byte(0..2)? {
            0 => Ok(Sign::AtMost),
            _ => Ok(Sign::AtLeast),
        }
    }

    fn rule(&mut self, n: u8, l: u8, family: Family) -> Result<Rule, Refusal> {
        self.mark(RULE_MARK)?;
        let count = self.byte(0..2 * l + 1)?;
        let mut literals: Vec<Literal> = Vec::new();
        for _ in 0..count {
            let place = self.at as u64;
            let literal = self.literal(n, l)?;
            let stands_after = literals.last().is_none_or(|before| {
                (before.setting, before.sign) < (literal.setting, literal.sign)
            });
            if !stands_after {
                return Err(Refusal::LiteralOrder { place });
            }
            literals.push(literal);
        }
        let rule = Rule::from_iter(literals);
        let place = self.record as u64;
        if rule.idle() {
            return Err(Refusal::IdleRule { place });
        }
        if !family.allows(&rule) {
            return Err(Refusal::OutsideFamily { place });
        }
        Ok(rule)
    }

    fn literal(&mut self, n: u8, l: u8) -> Result<Literal, Refusal> {
        let setting = self.byte(0..l)?;
        let sign = self.sign()?;
        // The bounds left out are those with which a literal would hold for every value; with
        // one value a setting none is left.
        let bound = self.byte(match sign {
            Sign::AtMost => 0..n - 1,
            Sign::AtLeast => 1..n,
        })?;
        Ok(Literal {
            setting,
            sign,
            bound,
        })
    }

    fn nothing_more(&self) -> Result<(), Refusal> {
        if self.at == self.bytes.len() {
            Ok(())
        } else {
            let place = self.at as u64;
            Err(Refusal::AfterEnd { place })
        }
    }
}
