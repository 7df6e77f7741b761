//! A small seeded source of random numbers (splitmix64).

/// The state of the source.
pub struct Random {
    state: u64,
}

impl Random {
    /// The source of one case of a seeded run.
    pub fn new(seed: u64, case: u64) -> Self {
        let mut random = Random {
            state: seed.wrapping_mul(0xd134_2543_de82_ef95),
        };
        random.state = random
            .word()
            .wrapping_add(case.wrapping_mul(0x9e37_79b9_7f4a_7c15));
        random.word();
        random
    }

    /// The next 64 bits.
    pub fn word(&mut self) -> u64 {
        self.state = self.state.wrapping_add(0x9e37_79b9_7f4a_7c15);
        let mut z = self.state;
        z = (z ^ (z >> 30)).wrapping_mul(0xbf58_476d_1ce4_e5b9);
        z = (z ^ (z >> 27)).wrapping_mul(0x94d0_49bb_1331_11eb);
        z ^ (z >> 31)
    }

    /// A number below n, which is not 0.
    pub fn below(&mut self, n: usize) -> usize {
        ((self.word() as u128 * n as u128) >> 64) as usize
    }

    /// A number from low to high.
    pub fn range(&mut self, low: usize, high: usize) -> usize {
        low + self.below(high - low + 1)
    }

    /// True once in n times.
    pub fn once_in(&mut self, n: usize) -> bool {
        self.below(n) == 0
    }

    /// A random byte.
    pub fn byte(&mut self) -> u8 {
        self.word() as u8
    }

    /// One of a list that is not empty.
    pub fn of<'a, T>(&mut self, list: &'a [T]) -> &'a T {
        &list[self.below(list.len())]
    }

    /// A copy of one of a list that is not empty.
    pub fn pick<T: Copy>(&mut self, list: &[T]) -> T {
        *self.of(list)
    }

    /// Puts a list into random order.
    pub fn shuffle<T>(&mut self, list: &mut [T]) {
        for i in (1..list.len()).rev() {
            list.swap(i, self.below(i + 1));
        }
    }

    /// Random bytes.
    pub fn bytes(&mut self, count: usize) -> Vec<u8> {
        let mut bytes = vec![0; count];
        for part in bytes.chunks_mut(8) {
            part.copy_from_slice(&self.word().to_le_bytes()[..part.len()]);
        }
        bytes
    }

    /// A float, often one at the edge of something.
    pub fn float(&mut self) -> f64 {
        match self.below(12) {
            0 => self.pick(&[0.0, -0.0, 1.0, -1.0, 0.5, 2.0, 3.0]),
            1 => self.pick(&[
                f64::INFINITY,
                f64::NEG_INFINITY,
                f64::MAX,
                f64::MIN,
                f64::EPSILON,
            ]),
            2 => f64::from_bits(self.pick(&[
                0x7ff8_0000_0000_0000,
                0xfff8_0000_0000_0000,
                0x7ff0_0000_0000_0001,
                0xfff0_0000_0000_0001,
                0x7fff_ffff_ffff_ffff,
                0x7ff8_0000_dead_beef,
            ])),
            3 => f64::from_bits(self.word() & 0x800f_ffff_ffff_ffff),
            4 => self.pick(&[
                f64::MIN_POSITIVE,
                -f64::MIN_POSITIVE,
                f64::from_bits(1),
                -f64::from_bits(1),
            ]),
            5 => f64::from_bits(self.word()),
            6 | 7 => self.below(20) as f64 - 10.0,
            _ => (self.word() >> 11) as f64 / (1u64 << 50) as f64 - 4.0,
        }
    }
}
