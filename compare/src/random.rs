//! A small seeded generator of numbers (splitmix).

pub struct Random(u64);

impl Random {
    pub fn new(seed: u64) -> Random {
        Random(seed)
    }

    pub fn next(&mut self) -> u64 {
        self.0 = self.0.wrapping_add(0x9E37_79B9_7F4A_7C15);
        let mixed = (self.0 ^ self.0 >> 30).wrapping_mul(0xBF58_476D_1CE4_E5B9);
        let mixed = (mixed ^ mixed >> 27).wrapping_mul(0x94D0_49BB_1331_11EB);
        mixed ^ mixed >> 31
    }

    /// A number from 0, below this one.
    pub fn below(&mut self, limit: usize) -> usize {
        (self.next() % limit.max(1) as u64) as usize
    }

    /// True once in so many times.
    pub fn once_in(&mut self, times: usize) -> bool {
        self.below(times) == 0
    }

    pub fn word(&mut self) -> u32 {
        self.next() as u32
    }

    pub fn bytes(&mut self, count: usize) -> Vec<u8> {
        (0..count).map(|_| self.next() as u8).collect()
    }

    pub fn pick<T: Copy>(&mut self, among: &[T]) -> T {
        among[self.below(among.len())]
    }

    /// Numbers that programs get wrong: limits, their neighbours, single bits, large ones.
    pub fn hostile(&mut self) -> u32 {
        match self.below(6) {
            0 => self.below(8) as u32,
            1 => {
                let limit = self.pick(&[12, 16, 20, 28, 31, 32, 40, 48, 52, 64, 99, 126, 128, 324]);
                self.near(limit)
            }
            2 => {
                let limit = self.pick(&[540, 0x0100, 0x0200, 4096, 0x8000_0000, u32::MAX]);
                self.near(limit)
            }
            3 => 1 << self.below(32),
            4 => self.word() >> self.below(32),
            _ => self.word(),
        }
    }

    /// A number at most two away from a limit.
    pub fn near(&mut self, limit: u32) -> u32 {
        limit.wrapping_add(self.below(5) as u32).wrapping_sub(2)
    }

    /// One of the good numbers, or now and then one close to it or a hostile one.
    pub fn mostly(&mut self, good: &[u32]) -> u64 {
        let number = self.pick(good);
        match self.below(48) {
            0 => self.near(number).into(),
            1 => self.hostile().into(),
            _ => number.into(),
        }
    }

    /// A version's number, now and then another.
    pub fn version(&mut self) -> u64 {
        match self.below(40) {
            0 => self.pick(&[0, 0x0101, 0x0300, 0x0002, 0xFFFF]),
            1 => u64::from(self.word() as u16),
            number => [0x0100, 0x0200][number % 2],
        }
    }

    /// The number of a reader's choice, now and then one that is none.
    pub fn choice(&mut self) -> u64 {
        match self.below(12) {
            0 => self.hostile().into(),
            number => number as u64 % 2,
        }
    }

    /// Room for an output of this length: enough, exact, short by a little, or none.
    pub fn room(&mut self, length: usize) -> u64 {
        match self.below(10) {
            0 => length.saturating_sub(1) as u64,
            1 => self.below(length + 1) as u64,
            2 => 0,
            3 => length as u64,
            _ => length as u64 + self.below(64) as u64,
        }
    }
}
