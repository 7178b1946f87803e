//! Seeded numbers: the same seed and case give the same inputs everywhere.

#[derive(Clone, Debug)]
pub struct Dice {
    state: u64,
}

impl Dice {
    /// The dice of one case; every case has its own.
    pub fn new(seed: u64, case: u64) -> Dice {
        let mut dice = Dice { state: seed };
        dice.state = dice.throw() ^ case.wrapping_mul(0xD6E8_FEB8_6659_FD93);
        dice.throw();
        dice
    }

    /// The next 64 bits, by the steps of splitmix64.
    pub fn throw(&mut self) -> u64 {
        self.state = self.state.wrapping_add(0x9E37_79B9_7F4A_7C15);
        let mut mixed = self.state;
        mixed = (mixed ^ mixed >> 30).wrapping_mul(0xBF58_476D_1CE4_E5B9);
        mixed = (mixed ^ mixed >> 27).wrapping_mul(0x94D0_49BB_1331_11EB);
        mixed ^ mixed >> 31
    }

    /// A number below `bound`, which is not 0.
    pub fn below(&mut self, bound: usize) -> usize {
        ((u128::from(self.throw()) * bound as u128) >> 64) as usize
    }

    /// A number from `first` to `last`, both included.
    pub fn within(&mut self, first: usize, last: usize) -> usize {
        first + self.below(last - first + 1)
    }

    /// True in `times` of `of` throws.
    pub fn chance(&mut self, times: usize, of: usize) -> bool {
        self.below(of) < times
    }

    pub fn pick<T: Copy>(&mut self, choices: &[T]) -> T {
        choices[self.below(choices.len())]
    }

    pub fn byte(&mut self) -> u8 {
        self.throw() as u8
    }

    pub fn word(&mut self) -> u32 {
        self.throw() as u32
    }

    pub fn bytes(&mut self, count: usize) -> Vec<u8> {
        let mut bytes = Vec::with_capacity(count + 8);
        while bytes.len() < count {
            bytes.extend(self.throw().to_le_bytes());
        }
        bytes.truncate(count);
        bytes
    }

    /// From `fewest` to `most` bytes.
    pub fn some_bytes(&mut self, fewest: usize, most: usize) -> Vec<u8> {
        let count = self.within(fewest, most);
        self.bytes(count)
    }

    /// A 32-bit number that often lies at an end of some range.
    pub fn edge(&mut self) -> u32 {
        const EDGES: [u32; 14] = [
            0,
            1,
            2,
            7,
            255,
            256,
            65_535,
            65_536,
            0x00FF_FFFF,
            0x7FFF_FFFF,
            0x8000_0000,
            u32::MAX - 2,
            u32::MAX - 1,
            u32::MAX,
        ];
        if self.chance(2, 3) {
            self.pick(&EDGES)
        } else {
            self.word()
        }
    }
}
