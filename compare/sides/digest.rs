//! Digests of answers: every part of an answer is mixed in, in order. For one word, `mix` gives different states from different states, so
//! two answers that differ in one part have different digests.

const START: u64 = 0x9E37_79B9_7F4A_7C15;

/// Stands for the digest of a long name or text that is not there.
pub const ABSENT: u64 = 0;

#[inline(always)]
pub fn mix(state: u64, word: u64) -> u64 {
    let mixed = (state ^ word).wrapping_mul(0xD6E8_FEB8_6659_FD93);
    mixed ^ mixed >> 32
}

#[inline(always)]
pub fn mixed<const N: usize>(words: [u64; N]) -> u64 {
    words.into_iter().fold(START, mix)
}

/// The digest of a string: its length, then its bytes by eights; the last eight end with it.
#[inline]
pub fn string(bytes: &[u8]) -> u64 {
    let mut state = mixed([bytes.len() as u64]);
    if bytes.len() < 8 {
        let word = bytes.iter().fold(0, |word, &byte| word << 8 | u64::from(byte));
        return mix(state, word);
    }
    let eight = |at: usize| u64::from_le_bytes(bytes[at..at + 8].try_into().unwrap());
    for at in (0..bytes.len() - 8).step_by(8) {
        state = mix(state, eight(at));
    }
    mix(state, eight(bytes.len() - 8))
}

/// The digest of a refused answer.
#[inline(always)]
pub fn refused(number: u8, carried: u64) -> u64 {
    mixed([u64::from(number), carried])
}

/// The digest of a record, with those of its strings.
#[inline(always)]
pub fn record(depth: u64, strings: [u64; 3], start: u64, width: u64, value: u64) -> u64 {
    let [name, long, text] = strings;
    mixed([depth, name, long, start, width, value, text])
}
