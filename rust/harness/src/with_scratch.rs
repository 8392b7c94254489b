//! A comparison whose calls are lent scratch: what those of texts, of tables of tags and of cutting have in common.

use crate::differences::Differences;
use crate::guarded::LentScratch;
use crate::Rng;

pub struct Comparison<P, T> {
    pub(crate) port: P,
    pub(crate) rng: Rng,
    pub(crate) scratch: LentScratch,
    pub tally: T,
    pub differences: Differences,
}

impl<P, T: Default> Comparison<P, T> {
    pub fn new(port: P, seed: u64) -> Self {
        Comparison {
            port,
            rng: Rng::new(seed),
            scratch: LentScratch::default(),
            tally: T::default(),
            differences: Differences::default(),
        }
    }
}
