//! Buffers as a careless host lends them: dirty, at any address, with other
//! data right before and right behind.

use reference::generate::random::Random;

/// The bytes that stand before and behind a lent buffer.
const GUARD_BYTES: usize = 64;

/// What they hold: nothing that an engine would write.
const GUARD: u8 = 0xA7;

/// Addresses are tried at every offset within this many bytes.
const ALIGNMENT: usize = 8;

/// A lent buffer between its guards.
pub struct Lent {
    bytes: Vec<u8>,
    from: usize,
    length: usize,
}

impl Lent {
    /// A buffer of so many bytes that hold anything.
    pub fn dirty(random: &mut Random, length: usize) -> Self {
        let mut lent = Lent::new(random, length);
        for chunk in lent.bytes_mut().chunks_mut(8) {
            let bits = random.bits().to_le_bytes();
            chunk.copy_from_slice(&bits[..chunk.len()]);
        }
        lent
    }

    /// A buffer that holds these bytes.
    pub fn holding(random: &mut Random, bytes: &[u8]) -> Self {
        let mut lent = Lent::new(random, bytes.len());
        lent.bytes_mut().copy_from_slice(bytes);
        lent
    }

    fn new(random: &mut Random, length: usize) -> Self {
        let from = GUARD_BYTES + random.below(ALIGNMENT);
        Lent { bytes: vec![GUARD; from + length + GUARD_BYTES], from, length }
    }

    /// The lent bytes.
    pub fn bytes(&self) -> &[u8] {
        &self.bytes[self.from..self.from + self.length]
    }

    /// The lent bytes, to be written.
    pub fn bytes_mut(&mut self) -> &mut [u8] {
        &mut self.bytes[self.from..self.from + self.length]
    }

    /// Whether nothing outside the lent bytes was written.
    pub fn is_guarded(&self) -> bool {
        let before = &self.bytes[..self.from];
        let behind = &self.bytes[self.from + self.length..];
        before.iter().chain(behind).all(|&byte| byte == GUARD)
    }
}

#[cfg(test)]
mod tests {
    use super::*;

    #[test]
    fn a_byte_outside_is_seen() {
        let mut lent = Lent::dirty(&mut Random::new(1), 12);
        assert!(lent.is_guarded());
        let behind = lent.from + 12;
        lent.bytes[behind] = 0;
        assert!(!lent.is_guarded());
    }

    #[test]
    fn bytes_are_held() {
        let lent = Lent::holding(&mut Random::new(2), &[1, 2, 3]);
        assert_eq!(lent.bytes(), [1, 2, 3]);
    }
}
