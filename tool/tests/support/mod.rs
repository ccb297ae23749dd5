//! What the tests and the examples share: random numbers, tables of all forms, damage, the round trip of text and table,
//! a client of the language server.

#![allow(dead_code)] // each test and example takes its part

pub mod client;
pub mod damage;
pub mod generate;
pub mod leaves;
pub mod loops;
pub mod mistakes;
pub mod proposals;
pub mod repaired;
pub mod round_trip;

/// Numbers from a seed (splitmix64).
pub struct Random(u64);

impl Random {
    /// The numbers of one case; different seeds and cases have nothing in common.
    pub fn of(seed: u64, case: u64) -> Random {
        let mut random =
            Random(seed.wrapping_mul(0x9E37_79B9_7F4A_7C15) ^ case.wrapping_mul(0xD1B5_4A32_D192_ED03));
        random.next();
        random
    }

    pub fn next(&mut self) -> u64 {
        self.0 = self.0.wrapping_add(0x9E37_79B9_7F4A_7C15);
        let mut z = self.0;
        z = (z ^ (z >> 30)).wrapping_mul(0xBF58_476D_1CE4_E5B9);
        z = (z ^ (z >> 27)).wrapping_mul(0x94D0_49BB_1331_11EB);
        z ^ (z >> 31)
    }

    pub fn below(&mut self, limit: usize) -> usize {
        (self.next() % limit.max(1) as u64) as usize
    }

    pub fn chance(&mut self, percent: usize) -> bool {
        self.below(100) < percent
    }

    pub fn pick<T: Copy>(&mut self, from: &[T]) -> T {
        from[self.below(from.len())]
    }
}

/// The numbers on the command line, with what they are when they are missing.
pub fn numbers(defaults: [u64; 2]) -> [u64; 2] {
    let mut given = std::env::args().skip(1);
    defaults.map(|default| given.next().map_or(default, |word| word.parse().expect("a number")))
}
