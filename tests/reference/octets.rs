//! Big-endian numbers, and the octets of one section numbered from 1.

/// The unsigned number that at most eight octets hold.
pub fn unsigned(octets: &[u8]) -> u64 {
    octets.iter().fold(0, |number, octet| (number << 8) | u64::from(*octet))
}

/// The number whose sign is in the top bit and whose size is in the rest, so that a set sign with size zero is 0.
pub fn sign_and_size(octets: &[u8]) -> i64 {
    let raw = unsigned(octets);
    let sign_bit = 1u64 << (8 * octets.len().clamp(1, 8) - 1);
    let size = (raw & (sign_bit - 1)) as i64;
    if raw & sign_bit == 0 {
        size
    } else {
        -size
    }
}

/// The number of whole octets that hold so many bits.
pub fn octets_for(bits: u64) -> u64 {
    bits / 8 + u64::from(bits % 8 != 0)
}

/// Turns a rule that does not hold into the absence of an answer.
pub fn require(rule: bool) -> Option<()> {
    if rule {
        Some(())
    } else {
        None
    }
}

/// One section of a message: its file place and its octets, none beyond its stated length.
#[derive(Clone, Copy, Debug, Default)]
pub struct Section<'a> {
    pub start: u32,
    pub octets: &'a [u8],
}

impl<'a> Section<'a> {
    pub fn length(&self) -> u64 {
        self.octets.len() as u64
    }

    /// Octets first to last, both counted from 1; none where the section does not hold them all.
    fn run(&self, first: usize, last: usize) -> &'a [u8] {
        self.octets.get(first.saturating_sub(1)..last).unwrap_or(&[])
    }

    pub fn octet(&self, number: usize) -> u8 {
        self.unsigned(number, number) as u8
    }

    pub fn unsigned(&self, first: usize, last: usize) -> u64 {
        unsigned(self.run(first, last))
    }

    pub fn sign_and_size(&self, first: usize, last: usize) -> i64 {
        sign_and_size(self.run(first, last))
    }

    /// All octets of the section from the given one on.
    pub fn octets_from(&self, first: usize) -> &'a [u8] {
        self.run(first, self.octets.len())
    }
}
