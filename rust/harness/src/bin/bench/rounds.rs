//! Rounds in which two works take turns, and what they tell.

use crate::clock::seconds;

/// Each side takes about so long in all, in no fewer rounds than about the fewest, nor more than the most.
const SECONDS: f64 = 1.0;
const FEWEST: usize = 32;
const MOST: usize = 1000;

/// The times of both works in each round.
pub struct Rounds(Vec<[f64; 2]>);

impl Rounds {
    /// `work` is asked for one of so many pairs of works, and for the first or the second of the pair. The two take turns, so that what
    /// else the machine does falls on both. Which one is first alternates too, so that neither always finds what the other left in the
    /// caches.
    pub fn of(pairs: usize, work: impl Fn(usize, usize)) -> Self {
        let mut rounds = Vec::new();
        for pair in 0..pairs {
            // caches and branch predictors warm up before the first round
            let [first, second] = [0, 1].map(|side| seconds(|| work(pair, side)));
            let wanted = (SECONDS / first.max(second)) as usize;
            for round in 0..wanted.clamp(FEWEST, MOST) / pairs {
                let mut times = [0.0; 2];
                for turn in 0..2 {
                    let side = (round + turn) % 2;
                    times[side] = seconds(|| work(pair, side));
                }
                rounds.push(times);
            }
        }
        Rounds(rounds)
    }

    pub fn medians(&self) -> [f64; 2] {
        [0, 1].map(|side| quantile(self.0.iter().map(|times| times[side]).collect(), 0.5))
    }

    /// How many times as fast the second work is. The machine may change its speed between two rounds, so each is compared within itself;
    /// the least quarter of the rounds lies below the first number, half below the second, and three quarters below the third.
    pub fn ratios(&self) -> [f64; 3] {
        let ratios: Vec<f64> = self
            .0
            .iter()
            .map(|[first, second]| first / second)
            .collect();
        [0.25, 0.5, 0.75].map(|part| quantile(ratios.clone(), part))
    }
}

/// The value below which so large a part of the values lies.
pub fn quantile(mut values: Vec<f64>, part: f64) -> f64 {
    values.sort_by(f64::total_cmp);
    values[((values.len() - 1) as f64 * part).round() as usize]
}
