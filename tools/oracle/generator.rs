//! A small generator of numbers (xorshift), the same on every machine.

pub struct Generator(u64);

impl Generator {
    /// Each pair has a row of its own.
    pub fn new(seed: u64, number: u64) -> Generator {
        let mixed =
            seed.wrapping_mul(0x9e37_79b9_7f4a_7c15) ^ number.wrapping_mul(0xbf58_476d_1ce4_e5b9);
        let mut generator = Generator((mixed ^ mixed >> 31) | 1);
        for _ in 0..8 {
            generator.bits();
        }
        generator
    }

    pub fn bits(&mut self) -> u32 {
        self.0 ^= self.0 << 13;
        self.0 ^= self.0 >> 7;
        self.0 ^= self.0 << 17;
        (self.0.wrapping_mul(0x2545_f491_4f6c_dd1d) >> 32) as u32
    }

    /// From 0 up to, not including, the limit.
    pub fn below(&mut self, limit: u32) -> u32 {
        ((u64::from(self.bits()) * u64::from(limit)) >> 32) as u32
    }

    pub fn chance(&mut self, percent: u32) -> bool {
        self.below(100) < percent
    }

    /// From 0 up to, not including, 1.
    pub fn unit(&mut self) -> f32 {
        (self.bits() >> 8) as f32 / 16_777_216.0
    }

    /// From -limit to limit.
    pub fn within(&mut self, limit: f32) -> f32 {
        (2.0 * self.unit() - 1.0) * limit
    }

    pub fn pick<T: Copy>(&mut self, list: &[T]) -> T {
        list[self.below(list.len() as u32) as usize]
    }

    /// The place of a row, as often as its weight says.
    pub fn by_weight<M>(&mut self, rows: &[(u32, &str, M)]) -> usize {
        let mut left = self.below(rows.iter().map(|row| row.0).sum());
        for (place, row) in rows.iter().enumerate() {
            if left < row.0 {
                return place;
            }
            left -= row.0;
        }
        unreachable!("the weights add up")
    }
}
