//! Words of 32 bits: their bytes, their kind, their payload and the signed
//! fields within the payload.

/// The bytes of one word.
pub const BYTES_PER_WORD: usize = 4;

/// The bits of a payload, 27..0.
pub const PAYLOAD_MASK: u32 = 0x0FFF_FFFF;

/// Bit 27, the top bit of a payload.
pub const BIT_27: u32 = 1 << 27;

/// The kinds a word can have, in sheets and in answers.
pub mod kinds {
    /// A sheet's head.
    pub const HEAD: u32 = 1;
    /// A road's first word: its two places.
    pub const ROAD_PLACES: u32 = 2;
    /// A road's second word: its weight.
    pub const ROAD_WEIGHT: u32 = 3;
    /// A sample.
    pub const SAMPLE: u32 = 4;
    /// A line of the table.
    pub const LINE: u32 = 5;
    /// The lower bound of a line.
    pub const LOWER: u32 = 6;
    /// The upper bound of a line.
    pub const UPPER: u32 = 7;
    /// The constant of a line.
    pub const CONSTANT: u32 = 8;
    /// The verdict yes with a finite margin.
    pub const YES: u32 = 9;
    /// The verdict no with a finite margin.
    pub const NO: u32 = 10;
    /// The verdict yes at plus infinity.
    pub const YES_PLUS_INFINITY: u32 = 11;
    /// The verdict no at minus infinity.
    pub const NO_MINUS_INFINITY: u32 = 12;
    /// The word before the head of a wide sheet or a wide answer: the places. A
    /// verdict of this kind stands in lines alone.
    pub const WIDE: u32 = 10;
    /// A correction's first word: its revision, and the signal and the time that it is
    /// aimed at. Like the next it stands in lists of corrections alone.
    pub const CORRECTION: u32 = 11;
    /// A correction's second word: the place that it is aimed at.
    pub const CORRECTED_PLACE: u32 = 12;
    /// An answer's head.
    pub const ANSWER_HEAD: u32 = 13;
    /// The head of a line's verdicts in an answer.
    pub const ANSWER_LINE: u32 = 14;
    /// The end of a sheet or an answer.
    pub const END: u32 = 15;
}

/// A word of a kind and a payload. Bits of the payload above 27 are dropped.
pub fn word(kind: u32, payload: u32) -> u32 {
    (kind << 28) | (payload & PAYLOAD_MASK)
}

/// "A word's bits 31..28 are its kind."
pub fn kind(word: u32) -> u32 {
    word >> 28
}

/// "27..0 its payload."
pub fn payload(word: u32) -> u32 {
    word & PAYLOAD_MASK
}

/// The bits `high`..`low` of a word as a number, both ends included.
pub fn field(word: u32, high: u32, low: u32) -> u32 {
    (word << (31 - high)) >> (31 - high + low)
}

/// "Bits 26..0 a two's complement number": a sample or a constant.
pub fn signed27(word: u32) -> i32 {
    (word << 5) as i32 >> 5
}

/// Whether a word is a sample wherever one belongs: "kind 4", "bit 27 zero".
pub fn is_sample(word: u32) -> bool {
    kind(word) == kinds::SAMPLE && word & BIT_27 == 0
}

/// A margin "in 28-bit two's complement": the whole payload.
pub fn signed28(word: u32) -> i32 {
    (word << 4) as i32 >> 4
}

/// The payload that lays a number out as a sample: 27 bits, bit 27 zero.
pub fn sample_payload(number: i32) -> u32 {
    number as u32 & (BIT_27 - 1)
}

/// The payload that holds a margin: 28 bits.
pub fn margin_payload(margin: i32) -> u32 {
    margin as u32 & PAYLOAD_MASK
}

/// The indices of the words whose kind is wanted, in their order.
pub fn indices(words: &[u32], wanted: impl Fn(u32) -> bool) -> Vec<usize> {
    (0..words.len()).filter(|&index| wanted(kind(words[index]))).collect()
}

/// The codes of the line words, in their order.
pub fn line_codes(words: &[u32]) -> Vec<u32> {
    let lines = words.iter().filter(|&&word| kind(word) == kinds::LINE);
    lines.map(|&word| field(word, 27, 20)).collect()
}

/// A line word with another code.
pub fn with_code(word: u32, code: u32) -> u32 {
    word & !(0xFF << 20) | code << 20
}

/// The words that bytes hold, "each word four bytes, lowest byte first", or
/// nothing where the length is no multiple of four.
pub fn from_bytes(bytes: &[u8]) -> Option<Vec<u32>> {
    if !bytes.len().is_multiple_of(BYTES_PER_WORD) {
        return None;
    }
    let chunks = bytes.chunks_exact(BYTES_PER_WORD);
    Some(chunks.map(from_chunk).collect())
}

/// The first words that bytes hold, so many at the most.
pub fn first_words(bytes: &[u8], most: usize) -> Vec<u32> {
    bytes.chunks_exact(BYTES_PER_WORD).take(most).map(from_chunk).collect()
}

/// The bytes of words, lowest byte first.
pub fn to_bytes(words: &[u32]) -> Vec<u8> {
    words.iter().flat_map(|word| word.to_le_bytes()).collect()
}

/// Puts one word at a word index of a byte buffer.
pub fn put(bytes: &mut [u8], index: usize, word: u32) {
    let from = index * BYTES_PER_WORD;
    bytes[from..from + BYTES_PER_WORD].copy_from_slice(&word.to_le_bytes());
}

fn from_chunk(chunk: &[u8]) -> u32 {
    u32::from_le_bytes([chunk[0], chunk[1], chunk[2], chunk[3]])
}

#[cfg(test)]
mod tests {
    use super::*;

    #[test]
    fn bytes_are_lowest_first() {
        assert_eq!(from_bytes(&[1, 0, 0, 0xF0]), Some(vec![0xF000_0001]));
        assert_eq!(to_bytes(&[0xF000_0001]), vec![1, 0, 0, 0xF0]);
        assert_eq!(from_bytes(&[1, 2, 3]), None);
        assert_eq!(from_bytes(&[]), Some(vec![]));
        assert_eq!(first_words(&[1, 0, 0, 0xF0, 2, 0, 0, 0, 3], 5), [0xF000_0001, 2]);
        assert_eq!(first_words(&[1, 0, 0, 0xF0, 2, 0, 0, 0, 3], 1), [0xF000_0001]);
    }

    #[test]
    fn fields_are_cut_by_their_bits() {
        assert_eq!(kind(0xF000_0012), 15);
        assert_eq!(payload(0xF000_0012), 0x12);
        assert_eq!(field(0x1020_1002, 27, 20), 2);
        assert_eq!(field(0x1020_1002, 19, 12), 1);
        assert_eq!(field(0x1020_1002, 11, 0), 2);
        assert_eq!(field(0xFFFF_FFFF, 9, 0), 1023);
        assert_eq!(field(0xFFFF_FFFF, 31, 0), u32::MAX);
    }

    #[test]
    fn codes_are_replaced_alone() {
        assert_eq!(with_code(0x50F0_0801, 7), 0x5070_0801);
        assert_eq!(with_code(0x5000_03FF, 0xFF), 0x5FF0_03FF);
    }

    #[test]
    fn samples_are_27_bit_twos_complement() {
        assert_eq!(signed27(0x47FF_FFFE), -2);
        assert_eq!(signed27(0x4400_0000), -67_108_864);
        assert_eq!(signed27(0x43FF_FFFF), 67_108_863);
        for number in [-67_108_864, -1, 0, 1, 67_108_863] {
            assert_eq!(signed27(sample_payload(number)), number);
            assert_eq!(sample_payload(number) & BIT_27, 0);
        }
    }

    #[test]
    fn samples_are_of_kind_4_without_bit_27() {
        for sample in [0x4000_0000, 0x47FF_FFFF] {
            assert!(is_sample(sample));
        }
        for other in [0x4800_0000, 0x4FFF_FFFF, 0x3000_0000, 0x5000_0000, 0x8000_0000, 0xC000_0000]
        {
            assert!(!is_sample(other));
        }
    }

    #[test]
    fn margins_are_28_bit_twos_complement() {
        assert_eq!(signed28(0xA800_0001), -134_217_727);
        assert_eq!(signed28(0x97FF_FFFF), 134_217_727);
        for margin in [-134_217_727, -1, 0, 1, 134_217_727] {
            assert_eq!(signed28(word(kinds::NO, margin_payload(margin))), margin);
        }
    }
}
