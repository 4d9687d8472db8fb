//! compare: asks the proved archive and the second program the same calls, and holds every answer
//! and every lent byte of the one to the other's.
//!
//! It prints the number of calls of each group, and each difference as the smallest call that shows
//! it. A whole run must also see every answer that document 01 allows each call. `compare 10` draws
//! ten times as many inputs by chance.

mod answer;
mod archive;
mod asking;
mod call;
mod chance;
mod comparer;
mod groups;
mod independent;
mod inputs;
mod room;
mod seen;
mod shown;
mod shrink;
mod smaller;
#[cfg(test)]
mod tests;

use std::env;
use std::process::ExitCode;

use comparer::Comparer;
use groups::GROUPS;

fn main() -> ExitCode {
    match times() {
        Ok(times) if all_well(times) => ExitCode::SUCCESS,
        Ok(_) => ExitCode::FAILURE,
        Err(why) => {
            eprintln!("compare: {why}");
            ExitCode::FAILURE
        }
    }
}

/// How many times as many inputs by chance: the first argument, or once.
fn times() -> Result<u64, String> {
    match env::args().nth(1) {
        None => Ok(1),
        Some(given) => match given.parse() {
            Ok(times @ 1..=1_000_000) => Ok(times),
            _ => Err(format!("{given} is no number from 1 to 1000000")),
        },
    }
}

/// Runs every group and prints what came of it; no where anything is not as it should be.
fn all_well(times: u64) -> bool {
    let mut comparer = Comparer::new(archive::ask, independent::ask);
    for (name, group) in GROUPS {
        let (calls, found) = (comparer.calls(), comparer.found().len());
        comparer.start_group();
        group(&mut comparer, times);
        println!("{name} {}", comparer.calls() - calls);
        for difference in &comparer.found()[found..] {
            println!("difference in {difference}");
        }
    }
    let (calls, differences) = (comparer.calls(), comparer.differences());
    println!("compared {calls} calls, {differences} differences");
    let (missing, strange) = (comparer.missing(), comparer.strange());
    for sight in &missing {
        println!("never seen: {sight}");
    }
    for sight in &strange {
        println!("seen, though document 01 does not allow it: {sight}");
    }
    differences == 0 && missing.is_empty() && strange.is_empty()
}
