//! A small source of random numbers (SplitMix64), the same on every machine.

pub struct Random {
    state: u64,
}

impl Random {
    /// The numbers for one script of a run.
    pub fn new(seed: u64, script: u64) -> Self {
        let mut random = Random { state: seed };
        random.state = random.next().wrapping_add(script.wrapping_mul(0xd134_2543_de82_ef95));
        random
    }

    /// Any 64-bit number.
    pub fn next(&mut self) -> u64 {
        self.state = self.state.wrapping_add(0x9e37_79b9_7f4a_7c15);
        let mut word = self.state;
        word = (word ^ (word >> 30)).wrapping_mul(0xbf58_476d_1ce4_e5b9);
        word = (word ^ (word >> 27)).wrapping_mul(0x94d0_49bb_1331_11eb);
        word ^ (word >> 31)
    }

    /// A number below a limit above 0.
    pub fn below(&mut self, limit: u64) -> u64 {
        self.next() % limit
    }

    /// True `part` times in a hundred.
    pub fn percent(&mut self, part: u64) -> bool {
        self.below(100) < part
    }

    pub fn pick<T: Copy>(&mut self, choices: &[T]) -> T {
        choices[self.below(choices.len() as u64) as usize]
    }

    pub fn bytes(&mut self, number: usize) -> Vec<u8> {
        (0..number).map(|_| self.next() as u8).collect()
    }

    /// One of some choices, each as often as its weight says.
    pub fn choose<T: Copy>(&mut self, weights: &[(T, u64)]) -> T {
        let total = weights.iter().map(|(_, weight)| weight).sum();
        let mut number = self.below(total);
        for (choice, weight) in weights {
            if number < *weight {
                return *choice;
            }
            number -= weight;
        }
        unreachable!("the number is below the sum of the weights")
    }
}
