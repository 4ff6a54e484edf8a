//! A small seeded source of numbers (the splitmix64 generator).

/// The source; equal seeds give equal rows of numbers.
#[derive(Clone, Debug)]
pub struct Dice {
    state: u64,
}

impl Dice {
    pub fn new(seed: u64) -> Dice {
        Dice { state: seed }
    }

    /// A source of its own for each of several numbered things.
    pub fn for_item(seed: u64, family: u64, index: u64) -> Dice {
        let mut first = Dice::new(seed);
        let mut second =
            Dice::new(first.next_number() ^ family.wrapping_mul(0xD6E8_FEB8_6659_FD93));
        Dice::new(second.next_number() ^ index.wrapping_mul(0xA076_1D64_78BD_642F))
    }

    /// The next number of the row.
    pub fn next_number(&mut self) -> u64 {
        self.state = self.state.wrapping_add(0x9E37_79B9_7F4A_7C15);
        let mut mixed = self.state;
        mixed = (mixed ^ (mixed >> 30)).wrapping_mul(0xBF58_476D_1CE4_E5B9);
        mixed = (mixed ^ (mixed >> 27)).wrapping_mul(0x94D0_49BB_1331_11EB);
        mixed ^ (mixed >> 31)
    }

    /// A number below the limit, which is at least 1.
    pub fn below(&mut self, limit: usize) -> usize {
        ((u128::from(self.next_number()) * limit as u128) >> 64) as usize
    }

    /// A number from the first through the last.
    pub fn between(&mut self, first: usize, last: usize) -> usize {
        first + self.below(last - first + 1)
    }

    /// True this many times out of a hundred.
    pub fn percent(&mut self, times: usize) -> bool {
        self.below(100) < times
    }

    pub fn byte(&mut self) -> u8 {
        self.below(256) as u8
    }

    /// One of several things.
    pub fn pick<'choices, Choice>(&mut self, choices: &'choices [Choice]) -> &'choices Choice {
        &choices[self.below(choices.len())]
    }
}
