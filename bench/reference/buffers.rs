//! Buffer fields.
use crate::bits::{get_bits, set_bits, word};
use crate::values::Value;
use crate::{check_size, Refusal};

/// What reading a field gives: a number, or so many bytes at the front of the output.
pub enum Content {
    Integer(u64),
    Buffer(usize),
}

#[inline]
pub fn check_bounds(size: usize, offset: u64, length: u64) -> Result<(), Refusal> {
    match offset.checked_add(length) {
        Some(end) if end <= 8 * size as u64 => Ok(()),
        _ => Err(Refusal::OUT_OF_BOUNDS),
    }
}

#[inline]
pub fn read_buffer_field(buffer: &[u8], offset: u64, length: u64, out: &mut [u8]) -> Result<Content, Refusal> {
    check_size(buffer)?;
    check_bounds(buffer.len(), offset, length)?;
    if length <= 64 {
        return Ok(Content::Integer(get_bits(buffer, offset as usize, length)));
    }
    let size = length.div_ceil(8) as usize;
    let out = out.get_mut(..size).ok_or(Refusal::OUTPUT_TOO_SHORT)?;
    read_long(buffer, offset as usize, length, out);
    Ok(Content::Buffer(size))
}

/// More than 64 bits, 64 a turn. Out of line, so that a short field pays nothing for it.
#[inline(never)]
pub fn read_long(buffer: &[u8], offset: usize, length: u64, out: &mut [u8]) {
    let mut at = offset;
    let (words, rest) = out.split_at_mut(length as usize / 64 * 8);
    for word in words.chunks_exact_mut(8) {
        word.copy_from_slice(&get_bits(buffer, at, 64).to_le_bytes());
        at += 64;
    }
    if length % 64 != 0 {
        let v = get_bits(buffer, at, length % 64).to_le_bytes();
        for (to, from) in rest.iter_mut().zip(v) {
            *to = from;
        }
    }
}

#[inline]
pub fn write_integer(buffer: &mut [u8], offset: u64, length: u64, value: u64) -> Result<(), Refusal> {
    check_size(buffer)?;
    check_bounds(buffer.len(), offset, length)?;
    if length <= 64 {
        set_bits(buffer, offset as usize, length, value);
    } else {
        write_long(buffer, offset as usize, length, &value.to_le_bytes());
    }
    Ok(())
}

#[inline]
pub fn write_bytes(buffer: &mut [u8], offset: u64, length: u64, bytes: &[u8]) -> Result<(), Refusal> {
    check_size(buffer)?;
    check_size(bytes)?;
    check_bounds(buffer.len(), offset, length)?;
    write_long(buffer, offset as usize, length, bytes);
    Ok(())
}

/// Any number of bits, 64 a turn; zeros past the end of bytes.
#[inline(never)]
fn write_long(buffer: &mut [u8], offset: usize, length: u64, bytes: &[u8]) {
    let mut done = 0;
    while done < length {
        let n = (length - done).min(64);
        set_bits(buffer, offset + done as usize, n, word(bytes, done as usize / 8));
        done += n;
    }
}

/// A Boolean sets the first bit alone.
#[inline]
pub fn write_value(buffer: &mut [u8], offset: u64, length: u64, value: Value) -> Result<(), Refusal> {
    check_size(buffer)?;
    match value {
        Value::Integer(n) => write_integer(buffer, offset, length, n),
        Value::Buffer(bytes) => write_bytes(buffer, offset, length, bytes),
        Value::Boolean(b) => {
            check_bounds(buffer.len(), offset, length)?;
            set_bits(buffer, offset as usize, length.min(1), b.into());
            Ok(())
        }
        other => Err(Refusal::met(3, other.type_of())),
    }
}

/// The buffer itself, as it was before: from the top down, so that what is read is not yet written.
#[inline]
pub fn write_self(buffer: &mut [u8], offset: u64, length: u64) -> Result<(), Refusal> {
    check_size(buffer)?;
    check_bounds(buffer.len(), offset, length)?;
    let (offset, length) = (offset as usize, length as usize);
    for at in (0..length).step_by(64).rev() {
        let v = word(buffer, at / 8);
        set_bits(buffer, offset + at, (length - at).min(64) as u64, v);
    }
    Ok(())
}
