//! A small deterministic generator: the same seed, stream and index give the same case on every machine and with any number of threads.

pub struct Random {
    state: u64,
}

impl Random {
    /// The generator of one case: `stream` tells the stages apart, `index` the cases of a stage.
    pub fn new(seed: u64, stream: u64, index: u64) -> Random {
        let mut random = Random { state: seed };
        for part in [stream, index] {
            random.state = random.next().wrapping_add(part.wrapping_mul(0xD134_2543_DE82_EF95));
        }
        random
    }

    pub fn next(&mut self) -> u64 {
        self.state = self.state.wrapping_add(0x9E37_79B9_7F4A_7C15);
        let mut z = self.state;
        z = (z ^ (z >> 30)).wrapping_mul(0xBF58_476D_1CE4_E5B9);
        z = (z ^ (z >> 27)).wrapping_mul(0x94D0_49BB_1331_11EB);
        z ^ (z >> 31)
    }

    /// A number below `end`, which is at least 1.
    pub fn below(&mut self, end: usize) -> usize {
        ((u128::from(self.next()) * end as u128) >> 64) as usize
    }

    /// A number from `first` to `last`, both included.
    pub fn between(&mut self, first: i64, last: i64) -> i64 {
        first + self.below((last - first + 1) as usize) as i64
    }

    /// True once in `n` times.
    pub fn once_in(&mut self, n: usize) -> bool {
        self.below(n) == 0
    }

    pub fn pick<T: Copy>(&mut self, from: &[T]) -> T {
        from[self.below(from.len())]
    }

    /// A number from 0 to 1, 1 not included.
    pub fn unit(&mut self) -> f32 {
        (self.next() >> 40) as f32 / 16_777_216.0
    }

    pub fn bytes(&mut self, count: usize) -> Vec<u8> {
        let mut all = Vec::with_capacity(count + 8);
        while all.len() < count {
            all.extend_from_slice(&self.next().to_le_bytes());
        }
        all.truncate(count);
        all
    }
}
