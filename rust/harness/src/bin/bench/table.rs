//! The table: a row for each work.

use crate::rounds::Rounds;
use crate::sides::Sides;
use harness::Build;

/// What is done in a round.
pub struct Work<'a> {
    pub what: &'a str,
    /// How often it is done in a round.
    pub times: usize,
    pub port: &'a dyn Fn(&Build),
    /// The ways in which the Rust can do it, each with what is to be said of it.
    pub rust: &'a [(&'a str, &'a dyn Fn())],
}

#[derive(Clone, Copy)]
pub enum Unit {
    MillionsPerSecond,
    Milliseconds,
    /// For each line.
    Nanoseconds,
}

impl Unit {
    fn name(self) -> &'static str {
        match self {
            Unit::MillionsPerSecond => "millions per second",
            Unit::Milliseconds => "milliseconds",
            Unit::Nanoseconds => "nanoseconds a line",
        }
    }

    fn of(self, seconds: f64) -> f64 {
        match self {
            Unit::MillionsPerSecond => 1e-6 / seconds,
            Unit::Milliseconds => 1e3 * seconds,
            Unit::Nanoseconds => 1e9 * seconds,
        }
    }

    /// The quotient of the columns that tells how many times as fast the second is.
    fn ratio(self, [first, second]: [&str; 2]) -> String {
        match self {
            Unit::MillionsPerSecond => format!("{second} / {first}"),
            Unit::Milliseconds | Unit::Nanoseconds => format!("{first} / {second}"),
        }
    }
}

pub struct Table<'a> {
    sides: &'a Sides,
    unit: Unit,
}

impl<'a> Table<'a> {
    /// Prints the heading.
    pub fn new(sides: &'a Sides, unit: Unit) -> Self {
        let names = sides.names();
        println!(
            "\n| in {} | {} | {} | {} | half of the rounds |",
            unit.name(),
            names[0],
            names[1],
            unit.ratio(names)
        );
        println!("|---|---:|---:|---:|---:|");
        Table { sides, unit }
    }

    pub fn sides(&self) -> &Sides {
        self.sides
    }

    /// Measures the work and prints its row; beside the Rust, a row for each of its ways.
    pub fn row(&self, work: Work) {
        match self.sides {
            Sides::RustAndPort(port) => {
                for (way, rust) in work.rust {
                    let rounds = Rounds::of(1, |_, side| match side {
                        0 => rust(),
                        _ => (work.port)(port),
                    });
                    self.print(&format!("{}{way}", work.what), work.times, &rounds);
                }
            }
            Sides::Builds(pairs) => {
                let rounds = Rounds::of(pairs.len(), |pair, side| (work.port)(&pairs[pair][side]));
                self.print(work.what, work.times, &rounds);
            }
        }
    }

    fn print(&self, what: &str, times: usize, rounds: &Rounds) {
        let [first, second] = rounds
            .medians()
            .map(|seconds| self.unit.of(seconds / times as f64));
        let [low, ratio, high] = rounds.ratios();
        println!("| {what} | {first:.2} | {second:.2} | {ratio:.2} | {low:.2} to {high:.2} |");
    }
}

/// With a comma before each three digits.
pub fn grouped(number: usize) -> String {
    match (number / 1000, number % 1000) {
        (0, units) => units.to_string(),
        (thousands, units) => format!("{},{units:03}", grouped(thousands)),
    }
}
