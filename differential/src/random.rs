//! A small random number generator (splitmix64): the same seed gives the same run.

pub struct Random {
    state: u64,
}

impl Random {
    /// A generator for one group of cases, so that a group does not depend on those before it.
    pub fn new(seed: u64, group: &str) -> Self {
        let mut state = seed;
        for byte in group.bytes() {
            state = mix(state.wrapping_add(u64::from(byte)));
        }
        Self { state }
    }

    pub fn word(&mut self) -> u64 {
        self.state = self.state.wrapping_add(0x9e37_79b9_7f4a_7c15);
        mix(self.state)
    }

    /// A number below a limit that is not 0.
    pub fn below(&mut self, limit: usize) -> usize {
        (self.word() % limit as u64) as usize
    }

    /// True once in so many times.
    pub fn once_in(&mut self, times: usize) -> bool {
        self.below(times) == 0
    }

    pub fn choose<T: Copy>(&mut self, from: &[T]) -> T {
        from[self.below(from.len())]
    }

    /// A word of so many bits, at most 64.
    pub fn bits(&mut self, count: usize) -> u64 {
        match count {
            0 => 0,
            _ => self.word() >> (64 - count),
        }
    }

    /// A number of a random width in bits.
    pub fn wide(&mut self) -> u64 {
        let width = self.below(65) as u32;
        self.word().checked_shr(64 - width).unwrap_or(0)
    }
}

fn mix(word: u64) -> u64 {
    let word = (word ^ (word >> 30)).wrapping_mul(0xbf58_476d_1ce4_e5b9);
    let word = (word ^ (word >> 27)).wrapping_mul(0x94d0_49bb_1331_11eb);
    word ^ (word >> 31)
}
