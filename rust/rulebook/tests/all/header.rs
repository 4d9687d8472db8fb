//! The header for C and the names of this crate give the same numbers.

use rulebook::sys::Answer;
use rulebook::Family;

const HEADER: &str = include_str!("../../../../include/rulebook.h");

/// Every `RULEBOOK_NAME = number` of the header.
fn constants() -> Vec<(&'static str, usize)> {
    HEADER
        .lines()
        .filter_map(|line| {
            let (name, after) = line.trim().strip_prefix("RULEBOOK_")?.split_once(" = ")?;
            let digits = after
                .find(|c: char| !c.is_ascii_digit())
                .unwrap_or(after.len());
            Some((name, after[..digits].parse().ok()?))
        })
        .collect()
}

/// A name in the header's writing: `DualHorn` is `DUAL_HORN`.
fn in_capitals(name: &str) -> String {
    let mut written = String::new();
    for (place, letter) in name.chars().enumerate() {
        if letter.is_uppercase() && place > 0 {
            written.push('_');
        }
        written.push(letter.to_ascii_uppercase());
    }
    written
}

#[test]
fn families_and_refusals_have_the_headers_names_and_numbers() {
    let families = Family::ALL.map(|family| (format!("{family:?}"), family.number()));
    let refusals = (1..=20).map(|number| {
        let gives = [0; 4];
        let refusal = Answer { number, gives }.given().unwrap_err();
        assert_eq!(refusal.number(), number);
        let debug = format!("{refusal:?}");
        let name = debug.split([' ', '(']).next().unwrap();
        (name.to_string(), number)
    });
    let ours: Vec<(String, usize)> = families
        .into_iter()
        .chain([("Ok".to_string(), 0)])
        .chain(refusals)
        .map(|(name, number)| (in_capitals(&name), number))
        .collect();
    let header: Vec<(String, usize)> = constants()
        .into_iter()
        .map(|(name, number)| (name.to_string(), number))
        .collect();
    assert_eq!(ours, header);
}
