//! Bytes that a host gives: as many as they should be, or of another length.
use super::random::Random;

/// Bytes of any length up to the longest that is tried.
#[derive(Clone)]
pub struct Given<const LONGEST: usize> {
    bytes: [u8; LONGEST],
    length: usize,
}

impl<const LONGEST: usize> Given<LONGEST> {
    /// Bytes of the right length.
    pub fn new(right: &[u8]) -> Given<LONGEST> {
        let mut bytes = [0; LONGEST];
        bytes[..right.len()].copy_from_slice(right);
        Given {
            bytes,
            length: right.len(),
        }
    }

    pub fn bytes(&self) -> &[u8] {
        &self.bytes[..self.length]
    }

    /// Another length: shorter, or longer with any bytes after the right ones.
    pub fn relength(&mut self, random: &mut Random) {
        let right = self.length;
        self.bytes[right..].fill_with(|| random.bits() as u8);
        self.length = match random.below(4) {
            0 => random.pick(&[0, right - 1, right + 1]),
            _ => random.below(LONGEST as u64 + 1) as usize,
        };
    }

    /// This length, with zeros after the right bytes.
    pub fn with_length(self, length: usize) -> Given<LONGEST> {
        Given { length, ..self }
    }
}
