/// How many shapes of filters there are: it has no divisor in common with the other choices that go round, so each meets each.
#[cfg(feature = "linked")]
pub(crate) const FILTER_SHAPES: usize = 11;

/// Numbers that depend on the seed alone.
pub(crate) struct Random(u64);

impl Random {
    pub fn new(seed: u64) -> Self {
        Random(seed.wrapping_mul(0x9e37_79b9_7f4a_7c15) ^ 0x5bd1_e995_3c6e_f372)
    }

    pub fn next(&mut self) -> u64 {
        self.0 = self.0.wrapping_add(0x9e37_79b9_7f4a_7c15);
        let mut z = self.0;
        z = (z ^ (z >> 30)).wrapping_mul(0xbf58_476d_1ce4_e5b9);
        z = (z ^ (z >> 27)).wrapping_mul(0x94d0_49bb_1331_11eb);
        z ^ (z >> 31)
    }

    /// A number below `n`.
    pub fn below(&mut self, n: usize) -> usize {
        (self.next() >> 11) as usize % n
    }

    /// A number in `lo ..= hi`.
    pub fn within(&mut self, lo: i64, hi: i64) -> i64 {
        lo + self.below((hi - lo + 1) as usize) as i64
    }

    /// True once in `n` times.
    pub fn once_in(&mut self, n: usize) -> bool {
        self.below(n) == 0
    }

    /// Samples: any, only the ends, or close to one another.
    pub fn bytes(&mut self, n: usize) -> Vec<u8> {
        let base = self.within(0, 255);
        match self.below(4) {
            0 => (0..n).map(|_| self.below(256) as u8).collect(),
            1 => (0..n).map(|_| [0, 255][self.below(2)]).collect(),
            2 => self.near(base, 6, n),
            _ => self.near(base, 60, n),
        }
    }

    /// Samples that differ from `base` by at most `spread`.
    pub fn near(&mut self, base: i64, spread: i64, n: usize) -> Vec<u8> {
        (0..n)
            .map(|_| (base + self.within(-spread, spread)).clamp(0, 255) as u8)
            .collect()
    }

    /// Filter numbers in `-limit - 1 ..= limit`: any, only the ends and 0, or small.
    pub fn taps(&mut self, n: usize, limit: i64) -> Vec<i64> {
        let shape = self.below(4);
        (0..n)
            .map(|_| match shape {
                0 => self.within(-limit - 1, limit),
                1 => [-limit - 1, limit, 0][self.below(3)],
                2 => self.within(-20, 20),
                _ => self.within(-4, 4) * self.below(2) as i64,
            })
            .collect()
    }

    /// Numbers of one filter in `-limit - 1 ..= limit`, of the shape that is asked for, in turn: the least everywhere, the
    /// greatest, zeros, these three mixed, any; then within 12, within 21, within 22; all of size 21, these with one of size
    /// 22, and all of size 22. The port sums a filter within 21 in 16 bits: both ways and the border between them are met.
    #[cfg(feature = "linked")]
    pub fn filter(&mut self, shape: usize, n: usize, limit: i64) -> Vec<i64> {
        let one = self.below(n);
        (0..n)
            .map(|i| match shape % FILTER_SHAPES {
                0 => -limit - 1,
                1 => limit,
                2 => 0,
                3 => [-limit - 1, limit, 0][self.below(3)],
                4 => self.within(-limit - 1, limit),
                5 => self.within(-12, 12),
                6 => self.within(-21, 21),
                7 => self.within(-22, 22),
                8 => [-21, 21][self.below(2)],
                9 if i == one => [-22, 22][self.below(2)],
                9 => [-21, 21][self.below(2)],
                _ => [-22, 22][self.below(2)],
            })
            .collect()
    }

    /// Masks of a row of blocks.
    pub fn masks(&mut self, n: usize) -> Vec<u16> {
        let shape = self.below(5);
        (0..n)
            .map(|_| match shape {
                0 | 1 => 0,
                2 => self.next() as u16,
                3 => (self.next() & self.next()) as u16,
                _ => (self.next() | self.next()) as u16,
            })
            .collect()
    }

    /// A quantizer: of the usual size, around 0, or any.
    pub fn quantizer(&mut self) -> i32 {
        match self.below(6) {
            0 => self.next() as i32,
            1 => self.within(-600, 600) as i32,
            2 => self.within(-40_000, 0) as i32,
            3 => self.within(0, 40_000) as i32,
            _ => self.within(0, 6_000) as i32,
        }
    }
}
