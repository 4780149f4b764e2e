//! Random numbers that are the same on every machine.

/// A splitmix64 generator.
pub struct Random {
    state: u64,
}

impl Random {
    /// The generator of case `index` at `seed`: each case can be made again by itself.
    pub fn of_case(seed: u64, index: u64) -> Random {
        let mut random = Random { state: seed };
        let first = random.bits();
        random.state = first ^ index.wrapping_mul(0xD134_2543_DE82_EF95);
        random.bits();
        random
    }

    /// The next 64 bits.
    pub fn bits(&mut self) -> u64 {
        self.state = self.state.wrapping_add(0x9E37_79B9_7F4A_7C15);
        let mut bits = self.state;
        bits = (bits ^ (bits >> 30)).wrapping_mul(0xBF58_476D_1CE4_E5B9);
        bits = (bits ^ (bits >> 27)).wrapping_mul(0x94D0_49BB_1331_11EB);
        bits ^ (bits >> 31)
    }

    /// A number from `low` to `high`, both included.
    pub fn between(&mut self, low: u32, high: u32) -> u32 {
        let width = u64::from(high) - u64::from(low) + 1;
        let offset = self.bits() % width;
        (u64::from(low) + offset) as u32
    }

    /// A place of a row of `length` numbers, which is above 0.
    pub fn place(&mut self, length: usize) -> usize {
        (self.bits() % length as u64) as usize
    }

    /// True once in `often` times.
    pub fn once_in(&mut self, often: u32) -> bool {
        self.between(1, often) == 1
    }

    /// One of the choices.
    pub fn one_of<T: Copy>(&mut self, choices: &[T]) -> T {
        choices[self.place(choices.len())]
    }
}
