//! Numbers by chance for tests, the same for the same seed.

/// A source of such numbers (SplitMix64).
pub struct Chance(pub u64);

impl Chance {
    /// The next number.
    pub fn number(&mut self) -> u64 {
        self.0 = self.0.wrapping_add(0x9E37_79B9_7F4A_7C15);
        let it = (self.0 ^ (self.0 >> 30)).wrapping_mul(0xBF58_476D_1CE4_E5B9);
        let it = (it ^ (it >> 27)).wrapping_mul(0x94D0_49BB_1331_11EB);
        it ^ (it >> 31)
    }

    /// One of the numbers below this one, which is not 0.
    pub fn below(&mut self, bound: u64) -> u64 {
        self.number() % bound
    }

    /// Octets of a record: none, 64, or some number of them; some all 0 or all 1.
    pub fn octets(&mut self) -> Vec<u8> {
        let count = match self.below(6) {
            0 => 0,
            1 => 64,
            _ => self.below(65),
        };
        let fill = self.below(12);
        (0..count).map(|_| if fill < 2 { 0u8.wrapping_sub(fill as u8) } else { self.number() as u8 }).collect()
    }
}

/// How often a test repeats itself: so many times, or that times `KENNELMORN_KEEPER_RUNS` where it is set.
pub fn runs(usual: u64) -> u64 {
    let times = std::env::var("KENNELMORN_KEEPER_RUNS").map_or(1, |it| it.parse().expect("KENNELMORN_KEEPER_RUNS is a number"));
    usual * times
}
