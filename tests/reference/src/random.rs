//! A small seeded source of numbers, the same on every machine.

pub struct Random {
    state: u64,
}

impl Random {
    /// The source for one place of a seeded sequence.
    pub fn new(seed: u64, index: u64) -> Random {
        let mut random = Random { state: seed };
        random.state = random.next() ^ index.wrapping_mul(0xD1B5_4A32_D192_ED03);
        random.next();
        random
    }

    /// The next 64 bits (splitmix64).
    pub fn next(&mut self) -> u64 {
        self.state = self.state.wrapping_add(0x9E37_79B9_7F4A_7C15);
        let mut bits = self.state;
        bits = (bits ^ (bits >> 30)).wrapping_mul(0xBF58_476D_1CE4_E5B9);
        bits = (bits ^ (bits >> 27)).wrapping_mul(0x94D0_49BB_1331_11EB);
        bits ^ (bits >> 31)
    }

    pub fn below(&mut self, bound: usize) -> usize {
        (self.next() % bound as u64) as usize
    }

    /// From `low` to `high`, both included.
    pub fn between(&mut self, low: usize, high: usize) -> usize {
        low + self.below(high - low + 1)
    }

    pub fn chance(&mut self, percent: usize) -> bool {
        self.below(100) < percent
    }

    pub fn pick<T: Copy>(&mut self, items: &[T]) -> T {
        items[self.below(items.len())]
    }

    /// A number from the ends and the turning points of the 32-bit range.
    pub fn border_number(&mut self) -> i32 {
        let near = self.between(0, 4) as i32 - 2;
        let around = [0, 46_340, -46_340, 65_536, 1 << 30, -(1 << 30), 21_474_836, -21_474_836];
        match self.below(6) {
            0 => i32::MAX - self.below(3) as i32,
            1 => i32::MIN + self.below(3) as i32,
            2 => self.next() as i32,
            _ => self.pick(&around) + near,
        }
    }

    /// Mostly a small number, at times a border number.
    pub fn number(&mut self) -> i32 {
        if self.chance(85) {
            self.between(0, 16) as i32 - 4
        } else {
            self.border_number()
        }
    }
}
