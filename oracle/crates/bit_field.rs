//! Stand-in for the crate bit_field 0.10, from memory: the bits of a number, with its checks (they panic).
#![no_std]

pub trait BitField {
    fn get_bit(&self, bit: usize) -> bool;
    fn get_bits(&self, range: core::ops::Range<usize>) -> Self;
    fn set_bit(&mut self, bit: usize, value: bool) -> &mut Self;
    fn set_bits(&mut self, range: core::ops::Range<usize>, value: Self) -> &mut Self;
}

macro_rules! number {
    ($($t:ty)*) => { $(
        impl BitField for $t {
            fn get_bit(&self, bit: usize) -> bool {
                assert!(bit < <$t>::BITS as usize);
                *self & (1 << bit) != 0
            }

            fn get_bits(&self, range: core::ops::Range<usize>) -> Self {
                let whole = <$t>::BITS as usize;
                assert!(range.start < whole);
                assert!(range.end <= whole);
                assert!(range.start < range.end);
                *self << (whole - range.end) >> (whole - range.end) >> range.start
            }

            fn set_bit(&mut self, bit: usize, value: bool) -> &mut Self {
                assert!(bit < <$t>::BITS as usize);
                if value { *self |= 1 << bit } else { *self &= !(1 << bit) }
                self
            }

            fn set_bits(&mut self, range: core::ops::Range<usize>, value: Self) -> &mut Self {
                let whole = <$t>::BITS as usize;
                assert!(range.start < whole);
                assert!(range.end <= whole);
                assert!(range.start < range.end);
                let above = whole - (range.end - range.start);
                assert!(value << above >> above == value, "value does not fit into bit range");
                let kept: Self = !(!0 << (whole - range.end) >> (whole - range.end) >> range.start << range.start);
                *self = *self & kept | value << range.start;
                self
            }
        }
    )* };
}

number!(u8 u16 u32 u64);
