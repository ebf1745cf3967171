//! Numbers, choices and texts by chance: the same ones for the same seed.

pub struct Chance(u64);

impl Chance {
    /// Each list has its own beginning, so that one can be made without the others.
    pub fn new(seed: usize, list: usize) -> Chance {
        let mixed = (seed as u64).wrapping_mul(0x9e37_79b9_7f4a_7c15)
            ^ (list as u64).wrapping_mul(0xd1b5_4a32_d192_ed03);
        let mut chance = Chance(mixed | 1);
        for _ in 0..8 {
            chance.below(2);
        }
        chance
    }

    pub fn below(&mut self, n: usize) -> usize {
        self.0 ^= self.0 << 13;
        self.0 ^= self.0 >> 7;
        self.0 ^= self.0 << 17;
        (self.0 >> 11) as usize % n
    }

    pub fn coin(&mut self) -> bool {
        self.below(2) == 0
    }

    pub fn byte(&mut self) -> u8 {
        self.below(256) as u8
    }

    pub fn one_of<T: Clone>(&mut self, items: &[T]) -> T {
        items[self.below(items.len())].clone()
    }

    /// As typed or printed: letters and signs most, and what stands at each border of the rules.
    pub fn character(&mut self) -> u8 {
        match self.below(12) {
            0 | 1 => 32,
            2 => self.byte(),
            3 => self.one_of(&[0, 7, 10, 13, 26, 27, 27, 27, 28, 31, 127, 133, 160, 255]),
            4 => self.one_of(b"/09:@AZ[`az{"),
            _ => 33 + self.below(94) as u8,
        }
    }

    pub fn characters(&mut self, length: usize) -> Vec<u8> {
        (0..length).map(|_| self.character()).collect()
    }

    /// Only what is written, so that so many cells are; at times with spaces.
    pub fn letters(&mut self, length: usize) -> Vec<u8> {
        let spaces = if self.below(4) == 0 { 12 } else { 0 };
        let letter = |i: usize| if i < 26 { 65 + i as u8 } else { 32 };
        (0..length)
            .map(|_| letter(self.below(26 + spaces)))
            .collect()
    }

    pub fn some_of(&mut self, bytes: &[u8], length: usize) -> Vec<u8> {
        (0..length).map(|_| self.one_of(bytes)).collect()
    }
}
