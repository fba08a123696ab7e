//! Numbers by chance.

/// The same numbers for the same seed.
#[derive(Clone)]
pub struct Chance(u64);

impl Chance {
    pub fn new(seed: u64) -> Chance {
        Chance(seed.wrapping_mul(0x9E37_79B9_7F4A_7C15) ^ 0x1234_5678_9ABC_DEF1)
    }

    /// For one of many, by its number.
    pub fn nth(seed: u64, number: u64) -> Chance {
        let first = Chance::new(seed).number();
        Chance(Chance(first ^ number).number())
    }

    pub fn number(&mut self) -> u64 {
        self.0 = self.0.wrapping_add(0x9E37_79B9_7F4A_7C15);
        let mut z = self.0;
        z = (z ^ z >> 30).wrapping_mul(0xBF58_476D_1CE4_E5B9);
        z = (z ^ z >> 27).wrapping_mul(0x94D0_49BB_1331_11EB);
        z ^ z >> 31
    }

    /// Below n, which is not 0.
    pub fn below(&mut self, n: u32) -> u32 {
        (self.number() % u64::from(n)) as u32
    }

    /// True once in n times.
    pub fn once(&mut self, n: u32) -> bool {
        self.below(n) == 0
    }

    pub fn often(&mut self, percent: u32) -> bool {
        self.below(100) < percent
    }

    pub fn one<T: Copy>(&mut self, of: &[T]) -> T {
        of[self.below(of.len() as u32) as usize]
    }

    /// Another order.
    pub fn mix<T>(&mut self, things: &mut [T]) {
        for i in (1..things.len()).rev() {
            things.swap(i, self.below(i as u32 + 1) as usize);
        }
    }
}
