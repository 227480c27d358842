//! A small generator of numbers by chance: splitmix64, which needs nothing but
//! its seed.

pub struct Random {
    state: u64,
}

impl Random {
    pub fn from_seed(seed: u64) -> Random {
        Random { state: seed }
    }

    pub fn next(&mut self) -> u64 {
        self.state = self.state.wrapping_add(0x9E37_79B9_7F4A_7C15);
        let mut mixed = self.state;
        mixed = (mixed ^ (mixed >> 30)).wrapping_mul(0xBF58_476D_1CE4_E5B9);
        mixed = (mixed ^ (mixed >> 27)).wrapping_mul(0x94D0_49BB_1331_11EB);
        mixed ^ (mixed >> 31)
    }

    /// 0 to `bound` - 1.
    pub fn below(&mut self, bound: u64) -> u64 {
        self.next() % bound
    }

    /// Both ends included.
    pub fn between(&mut self, least: u64, greatest: u64) -> u64 {
        least + self.below(greatest - least + 1)
    }

    pub fn one_in(&mut self, share: u64) -> bool {
        self.below(share) == 0
    }

    pub fn pick<Item: Copy>(&mut self, items: &[Item]) -> Item {
        items[self.place(items.len())]
    }

    /// A place in something of this length, which is not 0.
    pub fn place(&mut self, length: usize) -> usize {
        self.below(length as u64) as usize
    }

    pub fn octet(&mut self) -> u8 {
        self.next() as u8
    }

    pub fn octets(&mut self, length: usize) -> Vec<u8> {
        (0..length).map(|_| self.octet()).collect()
    }

    pub fn length(&mut self, least: usize, greatest: usize) -> usize {
        self.between(least as u64, greatest as u64) as usize
    }

    /// Often one of two plain references, so that they meet again.
    pub fn reference(&mut self) -> [u8; 4] {
        match self.below(3) {
            0 => [0, 0, 0, 1],
            1 => [0x12, 0x34, 0x56, 0x78],
            _ => [self.octet(), self.octet(), self.octet(), self.octet()],
        }
    }
}
