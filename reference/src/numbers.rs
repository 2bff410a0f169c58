//! Numbers of 64 bits in bytes: results and distances, "eight bytes each", lowest
//! byte first.

/// The bytes of one number.
pub const BYTES_PER_NUMBER: usize = 8;

/// Puts numbers one after the other into bytes, as many as both have.
pub fn put(bytes: &mut [u8], numbers: impl IntoIterator<Item = u64>) {
    for (place, number) in bytes.chunks_exact_mut(BYTES_PER_NUMBER).zip(numbers) {
        place.copy_from_slice(&number.to_le_bytes());
    }
}

/// The numbers that bytes hold, if they hold just so many.
pub fn read<const N: usize>(bytes: &[u8]) -> Option<[u64; N]> {
    let (numbers, past) = bytes.as_chunks();
    let numbers: [[u8; BYTES_PER_NUMBER]; N] = numbers.try_into().ok()?;
    past.is_empty().then(|| numbers.map(u64::from_le_bytes))
}

#[cfg(test)]
mod tests {
    use super::*;

    #[test]
    fn numbers_are_lowest_byte_first() {
        let mut bytes = [0xFF; 16];
        put(&mut bytes, [1, 0x0200]);
        assert_eq!(bytes, [1, 0, 0, 0, 0, 0, 0, 0, 0, 2, 0, 0, 0, 0, 0, 0]);
        assert_eq!(read(&bytes), Some([1, 0x0200]));
    }

    #[test]
    fn bytes_hold_just_so_many_or_none() {
        assert_eq!(read::<1>(&[0; 16]), None);
        assert_eq!(read::<1>(&[0; 9]), None);
        assert_eq!(read::<1>(&[0; 7]), None);
        assert_eq!(read(&[]), Some([]));
        assert_eq!(read(&[0xFF; 8]), Some([u64::MAX]));
    }
}
