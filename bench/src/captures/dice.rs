//! A seeded source of numbers (the splitmix64 generator): equal seeds give equal captures on every machine.

pub struct Dice {
    state: u64,
}

impl Dice {
    pub fn new(seed: u64) -> Dice {
        Dice { state: seed }
    }

    fn next(&mut self) -> u64 {
        self.state = self.state.wrapping_add(0x9E37_79B9_7F4A_7C15);
        let mut mixed = self.state;
        mixed = (mixed ^ (mixed >> 30)).wrapping_mul(0xBF58_476D_1CE4_E5B9);
        mixed = (mixed ^ (mixed >> 27)).wrapping_mul(0x94D0_49BB_1331_11EB);
        mixed ^ (mixed >> 31)
    }

    /// A number below the limit, which is at least 1.
    pub fn below(&mut self, limit: u64) -> u64 {
        self.next() % limit
    }

    /// Yes, one time out of so many.
    pub fn one_in(&mut self, times: u64) -> bool {
        self.below(times) == 0
    }

    pub fn pick<Choice: Copy>(&mut self, choices: &[Choice]) -> Choice {
        choices[self.below(choices.len() as u64) as usize]
    }

    /// A character from the first through the last.
    pub fn character(&mut self, first: u8, last: u8) -> u8 {
        first + self.below(u64::from(last - first) + 1) as u8
    }
}
