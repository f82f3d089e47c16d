//! Stands in for the crate `bit_field`, which is not packaged: the one method that the decoder uses.

use std::ops::Range;

pub trait BitField {
    fn get_bits(&self, range: Range<usize>) -> Self;
}

impl BitField for u64 {
    #[inline]
    fn get_bits(&self, range: Range<usize>) -> u64 {
        assert!(range.start < range.end && range.end <= 64);
        let above = 64 - range.end;
        *self << above >> above >> range.start
    }
}
