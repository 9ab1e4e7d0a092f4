//! A seeded xorshift generator: the same seed gives the same inputs on every machine.

#[derive(Clone)]
pub struct Random(u64);

impl Random {
    pub fn new(seed: u64) -> Random {
        let mut r = Random(seed.wrapping_mul(0x9E37_79B9_7F4A_7C15) | 1);
        // neighbouring seeds part ways
        for _ in 0..4 {
            r.bits();
        }
        r
    }

    pub fn bits(&mut self) -> u64 {
        self.0 ^= self.0 >> 12;
        self.0 ^= self.0 << 25;
        self.0 ^= self.0 >> 27;
        self.0.wrapping_mul(0x2545_F491_4F6C_DD1D)
    }

    /// A number from 0 to n - 1; 0 where n is 0.
    pub fn below(&mut self, n: usize) -> usize {
        (((self.bits() >> 32) * n as u64) >> 32) as usize
    }

    /// A number from low to high, both included.
    pub fn between(&mut self, low: usize, high: usize) -> usize {
        low + self.below(high - low + 1)
    }

    pub fn one_in(&mut self, n: usize) -> bool {
        self.below(n) == 0
    }

    pub fn byte(&mut self) -> u8 {
        (self.bits() >> 56) as u8
    }

    pub fn word(&mut self) -> u32 {
        (self.bits() >> 32) as u32
    }

    pub fn pick<T: Copy>(&mut self, from: &[T]) -> T {
        from[self.below(from.len())]
    }

    pub fn fill(&mut self, bytes: &mut [u8]) {
        bytes.fill_with(|| (self.bits() >> 56) as u8);
    }

    pub fn bytes(&mut self, length: usize) -> Vec<u8> {
        let mut made = vec![0; length];
        self.fill(&mut made);
        made
    }

    pub fn shuffle<T>(&mut self, of: &mut [T]) {
        for i in (1..of.len()).rev() {
            of.swap(i, self.below(i + 1));
        }
    }

    /// A number close to one of the places where rules change, or any.
    pub fn near(&mut self, borders: &[u32]) -> u32 {
        match self.below(8) {
            0 => self.word(),
            1 => self.word() >> self.below(32),
            2 => self.pick(borders).wrapping_add(1),
            3 => self.pick(borders).wrapping_sub(1),
            _ => self.pick(borders),
        }
    }
}
