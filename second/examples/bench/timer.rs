//! Programs timed in turns.

use std::hint::black_box;
use std::time::{Duration, Instant};

/// Times that the whole table is gone through unless it is said otherwise, so
/// that a row's rounds are spread over the run.
pub const PASSES: usize = 15;
/// Rounds of each program in a pass.
const ROUNDS: usize = 11;
/// What a round of ours should take: less than a processor is given at a
/// time, so that most rounds are whole.
const ROUND: Duration = Duration::from_micros(400);

/// The time of a call, in nanoseconds, over `calls` calls.
fn round<T>(call: &mut impl FnMut() -> T, calls: u32) -> f64 {
    let start = Instant::now();
    for _ in 0..calls {
        black_box(&call());
    }
    start.elapsed().as_nanos() as f64 / f64::from(calls)
}

/// How many calls fill a round.
fn calls_in_a_round<T>(call: &mut impl FnMut() -> T) -> u32 {
    let mut calls = 1;
    while round(call, calls) * f64::from(calls) < ROUND.as_nanos() as f64 {
        calls *= 2;
    }
    calls
}

/// The one in the middle by size, 0 where there is none.
fn median(mut numbers: Vec<f64>) -> f64 {
    let middle = numbers.len() / 2;
    if numbers.is_empty() {
        return 0.0;
    }
    *numbers.select_nth_unstable_by(middle, f64::total_cmp).1
}

/// What was measured for one row: our call, the second program's behind the
/// same interface, and, where that hands structs in by value, the second
/// program's on references.
struct Row {
    name: String,
    ours: Vec<f64>,
    second: Vec<f64>,
    lent: Vec<f64>,
}

impl Row {
    /// The median of the ratios of neighbouring rounds, which meet the same load.
    fn ratio(&self, other: &[f64]) -> f64 {
        let rounds = self.ours.iter().zip(other);
        median(rounds.map(|(ours, other)| ours / other).collect())
    }
}

/// The rows in the order in which they first came.
#[derive(Default)]
pub struct Table {
    rows: Vec<Row>,
}

impl Table {
    /// The row of this name, made where it is new.
    fn row(&mut self, name: &str) -> &mut Row {
        let known = self.rows.iter().position(|row| row.name == name);
        let at = known.unwrap_or(self.rows.len());
        if known.is_none() {
            self.rows.push(Row {
                name: name.to_string(),
                ours: Vec::new(),
                second: Vec::new(),
                lent: Vec::new(),
            });
        }
        &mut self.rows[at]
    }

    /// Times both in turns.
    pub fn compare<A, B>(
        &mut self,
        name: &str,
        mut ours: impl FnMut() -> A,
        mut second: impl FnMut() -> B,
    ) {
        let calls = calls_in_a_round(&mut ours);
        let row = self.row(name);
        for _ in 0..ROUNDS {
            row.ours.push(round(&mut ours, calls));
            row.second.push(round(&mut second, calls));
        }
    }

    /// Times all three in turns.
    pub fn compare_lent<A, B, C>(
        &mut self,
        name: &str,
        mut ours: impl FnMut() -> A,
        mut second: impl FnMut() -> B,
        mut lent: impl FnMut() -> C,
    ) {
        let calls = calls_in_a_round(&mut ours);
        let row = self.row(name);
        for _ in 0..ROUNDS {
            row.ours.push(round(&mut ours, calls));
            row.second.push(round(&mut second, calls));
            row.lent.push(round(&mut lent, calls));
        }
    }

    /// Prints a line for each row, with the medians.
    pub fn print(self) {
        println!(
            "Nanoseconds a call. second: the second program behind the same interface as ours;"
        );
        println!("lent: on references, where that interface hands structs in and back by value.");
        println!(
            "{:<54}{:>9}{:>9}{:>7}{:>9}{:>7}",
            "call", "ours", "second", "ratio", "lent", "ratio"
        );
        for row in self.rows {
            let (ratio, lent_ratio) = (row.ratio(&row.second), row.ratio(&row.lent));
            let (ours, second) = (median(row.ours), median(row.second));
            print!("{:<54}{ours:>9.1}{second:>9.1}{ratio:>7.2}", row.name);
            if row.lent.is_empty() {
                println!();
            } else {
                println!("{:>9.1}{lent_ratio:>7.2}", median(row.lent));
            }
        }
    }
}
