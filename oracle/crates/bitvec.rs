//! Stand-in for the crate bitvec 1.0, from memory: runs of bits in bytes, lowest bit of each byte first, on a little-endian machine. What the
//! text uses, and its panics: a range past the end, a copy between runs of unequal length. A vector made of a run keeps the place of
//! the run's first bit in its first byte, as the crate's does.
#![no_std]
extern crate alloc;

pub mod order {
    pub struct Lsb0;
}

pub mod slice {
    use core::cell::UnsafeCell;
    use core::marker::PhantomData;
    use core::ops::{Index, IndexMut, Range, RangeFrom, RangeTo};

    /// A reference to it is the address of its first byte, and as length the number of bits times 8 plus the first bit's place in that byte.
    #[repr(transparent)]
    pub struct BitSlice<T, O> {
        _kind: PhantomData<(T, O)>,
        _memory: [UnsafeCell<()>], // so that a pointer from a shared reference may be written through
    }

    fn packed(bits: usize, head: usize) -> usize {
        bits << 3 | head
    }

    impl<T, O> BitSlice<T, O> {
        pub(crate) unsafe fn at<'a>(byte: *const u8, head: usize, bits: usize) -> &'a Self {
            unsafe { &*(core::ptr::slice_from_raw_parts(byte as *const (), packed(bits, head)) as *const Self) }
        }

        pub(crate) unsafe fn at_mut<'a>(byte: *mut u8, head: usize, bits: usize) -> &'a mut Self {
            unsafe { &mut *(core::ptr::slice_from_raw_parts_mut(byte as *mut (), packed(bits, head)) as *mut Self) }
        }

        pub fn len(&self) -> usize {
            self._memory.len() >> 3
        }

        pub(crate) fn head(&self) -> usize {
            self._memory.len() & 7
        }

        fn byte(&self) -> *mut u8 {
            self._memory.as_ptr() as *mut u8
        }

        fn bit(&self, i: usize) -> bool {
            let place = self.head() + i;
            unsafe { *self.byte().add(place / 8) >> (place % 8) & 1 == 1 }
        }

        fn put(&mut self, i: usize, one: bool) {
            let place = self.head() + i;
            let byte = unsafe { &mut *self.byte().add(place / 8) };
            *byte = *byte & !(1 << (place % 8)) | (one as u8) << (place % 8);
        }

        fn part(&self, range: Range<usize>) -> (*mut u8, usize, usize) {
            assert!(range.start <= range.end, "range starts behind its end");
            assert!(range.end <= self.len(), "range past the end of a bit slice");
            let place = self.head() + range.start;
            (unsafe { self.byte().add(place / 8) }, place % 8, range.end - range.start)
        }

        pub fn set(&mut self, i: usize, one: bool) {
            assert!(i < self.len(), "bit past the end of a bit slice");
            self.put(i, one);
        }

        pub fn fill(&mut self, one: bool) {
            for i in 0..self.len() {
                self.put(i, one);
            }
        }

        pub fn clone_from_bitslice<T2, O2>(&mut self, from: &BitSlice<T2, O2>) {
            assert_eq!(self.len(), from.len(), "cloning between bit slices of unequal lengths");
            for i in 0..self.len() {
                self.put(i, from.bit(i));
            }
        }

        pub fn copy_from_bitslice(&mut self, from: &Self) {
            assert_eq!(self.len(), from.len(), "copying between bit slices of unequal lengths");
            for i in 0..self.len() {
                self.put(i, from.bit(i));
            }
        }

        pub fn to_bitvec(&self) -> crate::vec::BitVec<O> {
            let bytes = unsafe { core::slice::from_raw_parts(self.byte(), (self.head() + self.len()).div_ceil(8)) };
            crate::vec::BitVec { bytes: bytes.to_vec(), head: self.head(), bits: self.len(), _order: PhantomData }
        }
    }

    impl<T, O> Index<Range<usize>> for BitSlice<T, O> {
        type Output = Self;
        fn index(&self, range: Range<usize>) -> &Self {
            let (byte, head, bits) = self.part(range);
            unsafe { Self::at(byte, head, bits) }
        }
    }

    impl<T, O> IndexMut<Range<usize>> for BitSlice<T, O> {
        fn index_mut(&mut self, range: Range<usize>) -> &mut Self {
            let (byte, head, bits) = self.part(range);
            unsafe { Self::at_mut(byte, head, bits) }
        }
    }

    impl<T, O> Index<RangeFrom<usize>> for BitSlice<T, O> {
        type Output = Self;
        fn index(&self, range: RangeFrom<usize>) -> &Self {
            &self[range.start..self.len()]
        }
    }

    impl<T, O> Index<RangeTo<usize>> for BitSlice<T, O> {
        type Output = Self;
        fn index(&self, range: RangeTo<usize>) -> &Self {
            &self[0..range.end]
        }
    }
}

pub mod vec {
    use alloc::vec::Vec;
    use core::marker::PhantomData;

    pub struct BitVec<O> {
        pub(crate) bytes: Vec<u8>,
        pub(crate) head: usize,
        pub(crate) bits: usize,
        pub(crate) _order: PhantomData<O>,
    }

    impl<O> BitVec<O> {
        /// The bits of the bytes that the run does not hold.
        pub fn set_uninitialized(&mut self, one: bool) {
            for place in (0..self.head).chain(self.head + self.bits..self.bytes.len() * 8) {
                let bit = 1 << (place % 8);
                if one {
                    self.bytes[place / 8] |= bit
                } else {
                    self.bytes[place / 8] &= !bit
                }
            }
        }

        pub fn into_vec(self) -> Vec<u8> {
            self.bytes
        }
    }
}

pub mod view {
    use crate::slice::BitSlice;

    pub trait BitView {
        type Store;
        fn view_bits<O>(&self) -> &BitSlice<Self::Store, O>;
        fn view_bits_mut<O>(&mut self) -> &mut BitSlice<Self::Store, O>;
    }

    impl BitView for [u8] {
        type Store = u8;
        fn view_bits<O>(&self) -> &BitSlice<u8, O> {
            unsafe { BitSlice::at(self.as_ptr(), 0, self.len() * 8) }
        }
        fn view_bits_mut<O>(&mut self) -> &mut BitSlice<u8, O> {
            unsafe { BitSlice::at_mut(self.as_mut_ptr(), 0, self.len() * 8) }
        }
    }

    impl<const N: usize> BitView for [u8; N] {
        type Store = u8;
        fn view_bits<O>(&self) -> &BitSlice<u8, O> {
            self[..].view_bits()
        }
        fn view_bits_mut<O>(&mut self) -> &mut BitSlice<u8, O> {
            self[..].view_bits_mut()
        }
    }

    impl BitView for u32 {
        type Store = u32;
        fn view_bits<O>(&self) -> &BitSlice<u32, O> {
            unsafe { BitSlice::at(self as *const u32 as *const u8, 0, 32) }
        }
        fn view_bits_mut<O>(&mut self) -> &mut BitSlice<u32, O> {
            unsafe { BitSlice::at_mut(self as *mut u32 as *mut u8, 0, 32) }
        }
    }
}
