//! The order encoding of a book, and clasp asked for all its models.
//!
//! Variable x(i, d), d from 1 to n-1, says "setting i at least d". One clause for each i and d says
//! that x(i, d+1) brings x(i, d) with it; one for each rule holds the rule's literals, where
//! "at most d" is the negation of x(i, d+1). So the models are the permitted combinations.

use std::env;
use std::fmt::Write;
use std::fs;
use std::path::PathBuf;
use std::process::{self, Command};

use rulebook::{Book, Rule, Sign};

/// A book's encoding in a file, in a temporary folder that goes when this is dropped.
pub struct Encoding {
    folder: PathBuf,
    file: PathBuf,
}

/// What clasp answers.
pub struct Answer {
    pub models: u64,
    /// Seconds that it says it took, to the millisecond.
    pub time: f64,
}

impl Encoding {
    pub fn new(book: &Book<&[u8]>) -> Encoding {
        let folder = env::temp_dir().join(format!("rulebook-bench-{}", process::id()));
        let file = folder.join("book.cnf");
        fs::create_dir_all(&folder).expect("a temporary folder");
        let encoding = Encoding { folder, file };
        fs::write(&encoding.file, dimacs(book)).expect("room for a file");
        encoding
    }

    /// Runs clasp as a process of its own, from start to end.
    pub fn ask(&self) -> Answer {
        let output = Command::new("clasp")
            .args(["-n", "0", "-q"])
            .arg(&self.file)
            .output()
            .expect("clasp is installed");
        // 30: models were found and none is left; 20: there are none. At 10 some may be left.
        let status = output.status.code();
        assert!(
            matches!(status, Some(20 | 30)),
            "clasp ended with {status:?}"
        );
        let said = String::from_utf8(output.stdout).expect("clasp writes text");
        let time = field(&said, "Time").trim_end_matches('s');
        Answer {
            models: field(&said, "Models").parse().expect("a number of models"),
            time: time.parse().expect("a time"),
        }
    }
}

impl Drop for Encoding {
    fn drop(&mut self) {
        // What is left behind harms nobody.
        let _ = fs::remove_dir_all(&self.folder);
    }
}

/// The first word after a name and a colon, in a line such as `c Time : 0.068s (Solving: ...)`.
fn field<'a>(said: &'a str, name: &str) -> &'a str {
    said.lines()
        .filter_map(|line| line.strip_prefix("c ")?.split_once(':'))
        .find(|(before, _)| before.trim() == name)
        .and_then(|(_, after)| after.split_whitespace().next())
        .unwrap_or_else(|| panic!("clasp says no {name}: {said}"))
}

fn dimacs(book: &Book<&[u8]>) -> String {
    let (n, l) = (book.n(), book.l());
    let order = (0..l)
        .flat_map(|i| (1..n - 1).map(move |d| vec![-variable(n, i, d + 1), variable(n, i, d)]));
    let rules = book.rules().map(|rule| clause(n, rule));
    let clauses: Vec<Vec<i64>> = order.chain(rules).collect();
    let mut text = format!("p cnf {} {}\n", l * (n - 1), clauses.len());
    for clause in clauses {
        for literal in clause {
            write!(text, "{literal} ").expect("text grows");
        }
        text.push_str("0\n");
    }
    text
}

/// The number of x(setting, bound), from 1.
fn variable(n: usize, setting: usize, bound: usize) -> i64 {
    (setting * (n - 1) + bound) as i64
}

fn clause(n: usize, rule: Rule) -> Vec<i64> {
    rule.literals()
        .map(|literal| {
            let bound = usize::from(literal.bound);
            match literal.sign {
                Sign::AtMost => -variable(n, literal.setting, bound + 1),
                Sign::AtLeast => variable(n, literal.setting, bound),
            }
        })
        .collect()
}
