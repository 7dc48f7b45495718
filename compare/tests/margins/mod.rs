//! Buffers lent out of larger ones, to see that what stands beside them stays.

/// What stands in a buffer where nobody shall write; no answer has it.
pub const UNTOUCHED: u32 = 0xA5A5_A5A5;

/// How many words stand before and after a lent buffer.
const MARGIN: usize = 2_000;

/// These words within a larger buffer.
pub fn within_margins(words: &[u32]) -> Vec<u32> {
    let margin = [UNTOUCHED; MARGIN];
    [&margin, words, &margin].concat()
}

/// All but the margins.
pub fn inner(buffer: &mut [u32]) -> &mut [u32] {
    let end = buffer.len() - MARGIN;
    &mut buffer[MARGIN..end]
}
