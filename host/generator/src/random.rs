//! The source of chance: xoshiro256**, filled from a seed by splitmix64.

/// A row of random numbers that its seed decides.
#[derive(Clone, Debug)]
pub struct Random {
    state: [u64; 4],
}

impl Random {
    /// The row of this seed.
    #[must_use]
    pub fn from_seed(seed: u64) -> Random {
        let mut mixed = seed;
        let state = [(); 4].map(|()| split_mix(&mut mixed));
        Random { state }
    }

    /// The next 64 bits.
    pub fn word(&mut self) -> u64 {
        let [s0, s1, s2, s3] = self.state;
        let given = s1.wrapping_mul(5).rotate_left(7).wrapping_mul(9);
        let (t2, t3) = (s2 ^ s0, s3 ^ s1);
        self.state = [s0 ^ t3, s1 ^ t2, t2 ^ (s1 << 17), t3.rotate_left(45)];
        given
    }

    /// A number from 0 up to, but not including, `bound`; 0 where that is 0.
    pub fn below(&mut self, bound: usize) -> usize {
        match self.word().checked_rem(bound as u64) {
            Some(number) => number as usize,
            None => 0,
        }
    }

    /// A number from `low` to `high`, both included.
    pub fn between(&mut self, low: i16, high: i16) -> i16 {
        let span = (i32::from(high) - i32::from(low) + 1).max(1) as usize;
        low.wrapping_add(self.below(span) as i16)
    }

    /// True in this many of a hundred cases.
    pub fn chance(&mut self, percent: usize) -> bool {
        self.below(100) < percent
    }

    /// A byte.
    pub fn byte(&mut self) -> u8 {
        self.word().to_le_bytes()[0]
    }

    /// One of the items, or none of no items.
    pub fn pick<T: Copy>(&mut self, items: &[T]) -> Option<T> {
        items.get(self.below(items.len())).copied()
    }

    /// Puts the items in a random order.
    pub fn shuffle<T>(&mut self, items: &mut [T]) {
        for last in (1..items.len()).rev() {
            let other = self.below(last + 1);
            items.swap(last, other);
        }
    }
}

/// The next number of a splitmix64 row.
fn split_mix(state: &mut u64) -> u64 {
    *state = state.wrapping_add(0x9E37_79B9_7F4A_7C15);
    let mut mixed = *state;
    mixed = (mixed ^ (mixed >> 30)).wrapping_mul(0xBF58_476D_1CE4_E5B9);
    mixed = (mixed ^ (mixed >> 27)).wrapping_mul(0x94D0_49BB_1331_11EB);
    mixed ^ (mixed >> 31)
}

#[cfg(test)]
mod tests {
    use super::*;

    #[test]
    fn splitmix_gives_its_published_row() {
        let mut state = 1_234_567;
        let row = [(); 3].map(|()| split_mix(&mut state));
        let published = [
            6_457_827_717_110_365_317,
            3_203_168_211_198_807_973,
            9_817_491_932_198_370_423,
        ];
        assert_eq!(row, published);
    }

    #[test]
    fn xoshiro_gives_its_published_row() {
        let mut random = Random {
            state: [1, 2, 3, 4],
        };
        let row = [(); 4].map(|()| random.word());
        assert_eq!(row, [11_520, 0, 1_509_978_240, 1_215_971_899_390_074_240]);
    }
}
