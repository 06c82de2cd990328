//! Runs of bits in bytes, lowest first.

/// A number whose lowest n bits are one.
#[inline]
pub fn ones(n: u64) -> u64 {
    if n < 64 {
        (1 << n) - 1
    } else {
        u64::MAX
    }
}

/// The up to eight bytes that there are, lowest first.
#[inline]
pub fn number(bytes: &[u8]) -> u64 {
    bytes.iter().take(8).rev().fold(0, |v, byte| v << 8 | u64::from(*byte))
}

/// The eight bytes from at on, zeros past the end.
#[inline]
pub fn word(bytes: &[u8], at: usize) -> u64 {
    let rest = bytes.get(at..).unwrap_or(&[]);
    match rest.first_chunk() {
        Some(eight) => u64::from_le_bytes(*eight),
        None => number(rest),
    }
}

/// Up to 64 bits from offset on, which lie inside.
#[inline]
pub fn get_bits(bytes: &[u8], offset: usize, length: u64) -> u64 {
    let (at, shift) = (offset / 8, offset % 8);
    let mut v = word(bytes, at) >> shift;
    if shift as u64 + length > 64 {
        v |= u64::from(bytes[at + 8]) << (64 - shift);
    }
    v & ones(length)
}

/// The same, byte by byte.
#[inline]
pub fn set_by_bytes(bytes: &mut [u8], offset: usize, length: u64, value: u64) {
    let mut done = 0;
    while done < length {
        let k = offset + done as usize;
        let n = (8 - k as u64 % 8).min(length - done);
        let mask = (ones(n) << (k % 8)) as u8;
        let byte = &mut bytes[k / 8];
        *byte = *byte & !mask | ((value >> done) << (k % 8)) as u8 & mask;
        done += n;
    }
}

/// Up to 64 bits from offset on, which lie inside, become the lowest of value.
#[inline]
pub fn set_bits(bytes: &mut [u8], offset: usize, length: u64, value: u64) {
    let (at, shift) = (offset / 8, offset % 8);
    let Some(eight) = bytes.get_mut(at..).and_then(|rest| rest.first_chunk_mut::<8>()) else {
        return set_by_bytes(bytes, offset, length, value);
    };
    let mask = ones(length) << shift;
    *eight = (u64::from_le_bytes(*eight) & !mask | (value << shift) & mask).to_le_bytes();
    if shift as u64 + length > 64 {
        let mask = ones(shift as u64 + length - 64) as u8;
        let byte = &mut bytes[at + 8];
        *byte = *byte & !mask | (value >> (64 - shift)) as u8 & mask;
    }
}

