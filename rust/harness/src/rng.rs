//! Rng that a seed repeats (SplitMix64), so that a difference can be met again.

#[derive(Clone)]
pub struct Rng {
    state: u64,
}

impl Rng {
    pub fn new(seed: u64) -> Self {
        Rng { state: seed }
    }

    pub fn word(&mut self) -> u64 {
        self.state = self.state.wrapping_add(0x9e37_79b9_7f4a_7c15);
        let mut mixed = self.state;
        mixed = (mixed ^ (mixed >> 30)).wrapping_mul(0xbf58_476d_1ce4_e5b9);
        mixed = (mixed ^ (mixed >> 27)).wrapping_mul(0x94d0_49bb_1331_11eb);
        mixed ^ (mixed >> 31)
    }

    /// A number under `past`, which is not 0.
    pub fn below(&mut self, past: usize) -> usize {
        (self.word() % past as u64) as usize
    }

    pub fn one_in(&mut self, many: usize) -> bool {
        self.below(many) == 0
    }

    pub fn byte(&mut self) -> u8 {
        self.word() as u8
    }

    pub fn pick<T: Copy>(&mut self, among: &[T]) -> T {
        among[self.below(among.len())]
    }

    /// A number of any width up to 64 bits: small ones are as likely as large ones.
    pub fn number(&mut self) -> u64 {
        let unused = self.below(64);
        self.word() >> unused
    }
}

#[cfg(test)]
mod tests {
    use super::*;

    #[test]
    fn a_seed_repeats() {
        let words = |seed| {
            let mut rng = Rng::new(seed);
            [rng.word(), rng.word(), rng.word()]
        };
        assert_eq!(words(7), words(7));
        assert_ne!(words(7), words(8));
    }

    #[test]
    fn numbers_have_every_width() {
        let mut rng = Rng::new(1);
        let mut seen = [false; 65];
        for _ in 0..10_000 {
            seen[(64 - rng.number().leading_zeros()) as usize] = true;
        }
        assert!(seen[1..].iter().all(|&met| met));
    }
}
