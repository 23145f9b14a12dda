//! Pseudo-random numbers: the generator's choices and the words of the tables.
use twenty_first::prelude::BFieldElement;

/// splitmix64: one step a number, and any seed is a good one.
#[derive(Debug, Clone)]
pub struct Rng(u64);

impl Rng {
    pub fn new(seeds: &[u64]) -> Self {
        let mut rng = Self(0);
        for seed in seeds {
            rng.0 ^= seed;
            rng.0 = rng.next();
        }
        rng
    }

    pub fn next(&mut self) -> u64 {
        self.0 = self.0.wrapping_add(0x9e37_79b9_7f4a_7c15);
        let mut z = self.0;
        z = (z ^ (z >> 30)).wrapping_mul(0xbf58_476d_1ce4_e5b9);
        z = (z ^ (z >> 27)).wrapping_mul(0x94d0_49bb_1331_11eb);
        z ^ (z >> 31)
    }

    /// A number below `bound`.
    pub fn below(&mut self, bound: usize) -> usize {
        (self.next() % bound as u64) as usize
    }

    pub fn percent(&mut self, chance: usize) -> bool {
        self.below(100) < chance
    }

    pub fn pick<T: Copy>(&mut self, from: &[T]) -> T {
        from[self.below(from.len())]
    }

    /// A word below p; one in six lies where carries and borrows happen.
    pub fn word(&mut self) -> u64 {
        const P: u64 = BFieldElement::P;
        const EDGES: [u64; 8] = [
            0,
            1,
            P - 1,
            P - 2,
            0xffff_ffff,
            0x1_0000_0000,
            0xffff_ffff_0000_0000,
            0x8000_0000_0000_0000,
        ];
        match self.below(6) {
            0 => self.pick(&EDGES),
            _ => self.next() % P,
        }
    }
}

/// The words of one table cell or challenge. `kind` is the leaf's number in the
/// vectors, so that rows and tables differ.
pub fn cell(seed: u64, kind: u8, index: usize) -> [u64; 3] {
    let mut rng = Rng::new(&[seed, u64::from(kind), index as u64]);
    std::array::from_fn(|_| rng.word())
}
