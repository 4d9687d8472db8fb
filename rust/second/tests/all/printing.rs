//! The printing program and the text it prints.

use std::io::Write;
use std::process::{Command, Stdio};

use second::describe;

const INPUT: [u8; 9] = [3, 2, 1, 0, 1, 1, 1, 2, 2];
const TEXT: &str = "\
book 3 2 1 5
rule 0 1>=1
rule 1 0>=1 1<=1
rule 2 0<=0 1>=1
rule 3 0<=0 0>=2 1<=1
rule 4 0<=1 1>=2
";

fn printed(input: &[u8]) -> String {
    let mut program = Command::new(env!("CARGO_BIN_EXE_second-describe"))
        .stdin(Stdio::piped())
        .stdout(Stdio::piped())
        .spawn()
        .unwrap();
    // The program may stop reading before the end of a long input.
    let _ = program.stdin.take().unwrap().write_all(input);
    let output = program.wait_with_output().unwrap();
    assert!(output.status.success());
    String::from_utf8(output.stdout).unwrap()
}

#[test]
fn the_printed_example() {
    assert_eq!(describe(&INPUT), TEXT);
    assert_eq!(printed(&INPUT), TEXT);
}

#[test]
fn missing_first_bytes_count_as_0() {
    assert_eq!(describe(&[]), "refused 1\n");
    assert_eq!(describe(&[3]), "refused 1\n");
    assert_eq!(describe(&[3, 2]), "book 3 2 0 1\nrule 0\n");
    assert_eq!(printed(&[3, 2]), "book 3 2 0 1\nrule 0\n");
    assert_eq!(printed(&[]), "refused 1\n");
}

#[test]
fn refusals_are_one_line() {
    assert_eq!(describe(&[3, 2, 0, 1]), "refused 2\n");
    assert_eq!(describe(&[3, 2, 0, 0, 3]), "refused 4 1\n");
    assert_eq!(describe(&[3, 2, 0, 0, 1, 0, 1]), "refused 5 1\n");
    assert_eq!(describe(&[3, 2, 4]), "refused 6\n");
    assert_eq!(describe(&[2, 2, 1, 0, 1, 1, 0]), "refused 7 0 1\n");
    let open = [2, 3, 3, 0, 0, 1, 0, 1, 0, 1, 0, 0];
    assert_eq!(describe(&open), "refused 7 0 1 2\n");
}

/// 512 rows of 16 settings whose book is longer than the lent room.
#[test]
fn a_book_longer_than_the_lent_room() {
    let mut input = vec![64, 16, 0];
    for row in 0..512_u16 {
        input.extend([(row / 8) as u8, (8 * (row % 8)) as u8]);
        input.extend([31; 14]);
    }
    let text = describe(&input);
    let length: u64 = text
        .strip_prefix("refused 8 ")
        .and_then(|rest| rest.strip_suffix('\n'))
        .unwrap()
        .parse()
        .unwrap();
    assert!(length > 65_536);
    let mut room = vec![0; length as usize];
    let made = second::make(64, 16, 0, &input[3..], &mut room).unwrap();
    assert_eq!(made.length, length);
}

/// Beyond 65,536 bytes nothing is read: 65,533 of the table count here, and none of the rest.
#[test]
fn input_is_read_up_to_its_limit() {
    let mut input = vec![64, 1, 0];
    input.resize(70_000, 0);
    assert_eq!(describe(&input), "refused 3 65533\n");
    assert_eq!(printed(&input), "refused 3 65533\n");
}
