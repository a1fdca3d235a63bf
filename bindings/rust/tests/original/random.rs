//! A small random number generator (splitmix64): the same seed gives the same cases.

pub struct Random {
    state: u64,
}

impl Random {
    /// The generator of one test. The seed shows where the test fails.
    pub fn of(test: &str) -> Self {
        let seed = std::env::var("NITRASOVY_SEED").ok();
        let seed = seed.map_or(1, |text| text.parse().expect("NITRASOVY_SEED is a number"));
        println!("{test}: seed {seed}");
        let mix = |state: u64, byte: u8| state.wrapping_mul(257).wrapping_add(u64::from(byte));
        Self {
            state: test.bytes().fold(seed, mix),
        }
    }

    pub fn word(&mut self) -> u64 {
        self.state = self.state.wrapping_add(0x9e37_79b9_7f4a_7c15);
        let word = (self.state ^ (self.state >> 30)).wrapping_mul(0xbf58_476d_1ce4_e5b9);
        let word = (word ^ (word >> 27)).wrapping_mul(0x94d0_49bb_1331_11eb);
        word ^ (word >> 31)
    }

    /// A number below a limit that is not 0.
    pub fn below(&mut self, limit: usize) -> usize {
        (self.word() % limit as u64) as usize
    }

    /// True once in so many times.
    pub fn once_in(&mut self, times: usize) -> bool {
        self.below(times) == 0
    }

    pub fn choose<T: Copy>(&mut self, from: &[T]) -> T {
        from[self.below(from.len())]
    }

    /// Each number below a limit, once in so many times, in order.
    pub fn some_of(&mut self, limit: usize, times: usize) -> Vec<usize> {
        (0..limit).filter(|_| self.once_in(times)).collect()
    }

    pub fn shuffle<T>(&mut self, list: &mut [T]) {
        for end in (1..list.len()).rev() {
            list.swap(end, self.below(end + 1));
        }
    }
}
