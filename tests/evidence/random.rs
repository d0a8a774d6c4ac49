//! A deterministic generator of numbers: the same seed gives the same numbers on every machine, so that a failing case can be repeated from
//! its seed alone.

/// The state is four words, stirred by rotations and exclusive ors; the words are never all zero.
pub struct Random {
    words: [u64; 4],
}

impl Random {
    /// The four words come from the seed by steps of an odd constant, each step well mixed, so that neighbouring seeds give unlike numbers.
    pub fn new(seed: u64) -> Random {
        let step = |count: u64| mixed(seed.wrapping_add(count.wrapping_mul(0x9e37_79b9_7f4a_7c15)));
        Random { words: [step(1), step(2), step(3), step(4) | 1] }
    }

    /// Any 64 bits.
    pub fn any(&mut self) -> u64 {
        let [a, b, c, d] = self.words;
        let answer = b.wrapping_mul(5).rotate_left(7).wrapping_mul(9);
        let (c, d) = (c ^ a, d ^ b);
        self.words = [a ^ d, b ^ c, c ^ (b << 17), d.rotate_left(45)];
        answer
    }

    /// A number from 0 to n - 1. There is none below 0: n is at least 1.
    pub fn below(&mut self, n: u64) -> u64 {
        assert!(n > 0, "no number is below 0");
        ((u128::from(self.any()) * u128::from(n)) >> 64) as u64
    }

    /// A number from a to b, both included.
    pub fn between(&mut self, a: i64, b: i64) -> i64 {
        assert!(a <= b, "no number from {} to {}", a, b);
        let span = b.wrapping_sub(a) as u64;
        let offset = if span == u64::MAX { self.any() } else { self.below(span + 1) };
        a.wrapping_add(offset as i64)
    }

    /// True so many times out of so many.
    pub fn chance(&mut self, numerator: u64, denominator: u64) -> bool {
        self.below(denominator) < numerator
    }

    pub fn choose<'a, T>(&mut self, from: &'a [T]) -> &'a T {
        &from[self.below(from.len() as u64) as usize]
    }

    pub fn octet(&mut self) -> u8 {
        self.below(256) as u8
    }

    pub fn octets(&mut self, n: usize) -> Vec<u8> {
        (0..n).map(|_| self.octet()).collect()
    }
}

fn mixed(word: u64) -> u64 {
    let word = (word ^ (word >> 30)).wrapping_mul(0xbf58_476d_1ce4_e5b9);
    let word = (word ^ (word >> 27)).wrapping_mul(0x94d0_49bb_1331_11eb);
    word ^ (word >> 31)
}
