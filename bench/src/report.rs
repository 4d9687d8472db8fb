//! Times taken in turns, and the table that they are printed in.

use std::hint::black_box;
use std::time::Instant;

/// Turns that every contender gets.
const LEAST_TURNS: usize = 5;
/// Seconds for which a fast contender gets further turns.
const LEAST_TIME: f64 = 0.5;
/// Seconds after which a slow one gets no further turn.
const MOST_TIME: f64 = 10.0;

/// The best time of a contender, in seconds, and how many turns it is the best of.
#[derive(Clone, Copy)]
pub struct Best {
    pub time: f64,
    pub turns: usize,
    /// Whether the time is known to the millisecond only.
    pub rough: bool,
}

/// A contender, which is run once a turn.
pub struct Contender<'a> {
    best: Best,
    spent: f64,
    run: Box<dyn FnMut() + 'a>,
}

impl<'a> Contender<'a> {
    pub fn new<T>(mut run: impl FnMut() -> T + 'a) -> Contender<'a> {
        Contender {
            best: Best {
                time: f64::INFINITY,
                turns: 0,
                rough: false,
            },
            spent: 0.0,
            run: Box::new(move || drop(black_box(run()))),
        }
    }

    fn rests(&self) -> bool {
        self.spent > MOST_TIME || (self.best.turns >= LEAST_TURNS && self.spent > LEAST_TIME)
    }

    fn turn(&mut self) {
        let begun = Instant::now();
        (self.run)();
        let time = begun.elapsed().as_secs_f64();
        self.spent += time;
        self.best.turns += 1;
        self.best.time = self.best.time.min(time);
    }
}

/// Lets the contenders take turns until each has had enough.
pub fn race<const COUNT: usize>(mut contenders: [Contender; COUNT]) -> [Best; COUNT] {
    while !contenders.iter().all(Contender::rests) {
        for contender in contenders.iter_mut().filter(|each| !each.rests()) {
            contender.turn();
        }
    }
    contenders.map(|each| each.best)
}

/// What the numbers rest on.
pub fn conditions() {
    let cores = std::thread::available_parallelism().map_or(0, usize::from);
    println!(
        "{cores} cores; each contender uses one.
Best of at least {LEAST_TURNS} turns, the contenders alternating; of fewer, marked *, where they last above {MOST_TIME} s in all.
Rooms are lent: written to before the first turn, not cleared between turns. What a contender allocates itself is timed.
In a timed turn a listing is counted, not looked at: that the contenders list the same is seen before, for clasp by its number of models.
clasp is a process of its own, timed from its start to its end; writing its file is not timed. Beside it stands the time that it reports itself, with a resolution of a millisecond.
The time of a page of few steps is the mean over the first pages, each from the cursor that the last one gave.
A ratio is the contender's time divided by the library's: above 1 the library is the faster one.
The stack of a page, from the first row on with the most steps, goes from its caller's frame to the deepest byte that it changed."
    );
}

/// Begins a part of the table: what is measured, and the contenders beside the library.
pub fn heading(call: &str, contenders: &[&str]) {
    print!("\n{call:<48}{:>12}", "library");
    for contender in contenders {
        print!("{contender:>12}{:>8}", "ratio");
    }
    println!();
}

/// One line: the library's time, then each contender's and its ratio.
pub fn line(input: &str, library: Best, contenders: &[Best]) {
    print!("  {input:<46}{:>12}", written(library));
    for contender in contenders {
        let ratio = contender.time / library.time;
        print!("{:>12}{ratio:>8.2}", written(*contender));
    }
    println!();
}

/// One line of bytes in the place of times.
pub fn amount(input: &str, bytes: usize) {
    println!("  {input:<46}{:>12}", format!("{bytes} bytes"));
}

/// A time with three significant digits, or a rough one in milliseconds.
fn written(best: Best) -> String {
    let few = if best.turns < LEAST_TURNS { "*" } else { "" };
    if best.rough {
        return format!("{:.0} ms{few}", best.time * 1e3);
    }
    let (amount, unit) = [(1e9, "ns"), (1e6, "us"), (1e3, "ms")]
        .map(|(scale, unit)| (best.time * scale, unit))
        .into_iter()
        .find(|(amount, _)| *amount < 999.5)
        .unwrap_or((best.time, "s"));
    let places = match amount {
        amount if amount < 9.995 => 2,
        amount if amount < 99.95 => 1,
        _ => 0,
    };
    format!("{amount:.places$} {unit}{few}")
}
