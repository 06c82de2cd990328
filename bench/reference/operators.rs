//! The operators.
use crate::bits::get_bits;
use crate::buffers::read_long;
use crate::values::Value;
use crate::{AmlType, Refusal};
use std::cmp::Ordering;

/// Left, then right.
#[inline]
pub fn both(left: Value, right: Value) -> Result<(u64, u64), Refusal> {
    Ok((left.as_integer()?, right.as_integer()?))
}

#[inline]
pub fn shift_left(left: Value, right: Value) -> Result<u64, Refusal> {
    let (x, count) = both(left, right)?;
    if count >= 64 {
        return Err(Refusal::INVALID_SHIFT_LEFT);
    }
    Ok(x << count)
}

#[inline]
pub fn shift_right(left: Value, right: Value) -> Result<u64, Refusal> {
    let (x, count) = both(left, right)?;
    if count >= 64 {
        return Err(Refusal::INVALID_SHIFT_RIGHT);
    }
    Ok(x >> count)
}

#[inline]
pub fn compare(left: Value, right: Value) -> Result<Ordering, Refusal> {
    match (left, right) {
        (Value::Integer(_) | Value::Boolean(_) | Value::FieldUnit { .. }, _) => {
            let (x, y) = both(left, right)?;
            Ok(x.cmp(&y))
        }
        (Value::String(s), Value::String(t)) | (Value::Buffer(s), Value::Buffer(t)) => Ok(s.cmp(t)),
        (Value::String(_), _) => Err(right.read_as(AmlType::String)),
        (Value::Buffer(s), _) => {
            let size = right.buffer_length()?;
            Ok(s.iter().copied().cmp((0..size).map(|i| field_byte(right, i))))
        }
        _ => Err(Refusal::met(4, left.type_of())),
    }
}

/// Byte i of a BufferField over 64 bits.
#[inline]
fn field_byte(value: Value, i: usize) -> u8 {
    match value {
        Value::BufferField { buffer, offset, length } => get_bits(buffer, offset as usize + 8 * i, (length - 8 * i as u64).min(8)) as u8,
        _ => 0,
    }
}

fn name(kind: AmlType) -> &'static [u8] {
    match kind {
        AmlType::BufferField => b"[Buffer Field]",
        AmlType::FieldUnit => b"[Field]",
        AmlType::Device => b"[Device]",
        AmlType::Method => b"[Control Method]",
        AmlType::Mutex => b"[Mutex]",
        AmlType::OpRegion => b"[Operation Region]",
        AmlType::Package => b"[Package]",
        AmlType::Processor => b"[Processor]",
        AmlType::PowerResource => b"[Power Resource]",
        AmlType::ThermalZone => b"[Thermal Zone]",
        AmlType::Integer | AmlType::String | AmlType::Buffer => b"",
    }
}

/// A value's string or name.
#[inline]
fn text<'a>(value: Value<'a>) -> Result<&'a [u8], Refusal> {
    match value {
        Value::String(bytes) => Ok(bytes),
        Value::Boolean(_) | Value::Integer(_) | Value::Buffer(_) => Err(Refusal::conversion(value.type_of(), AmlType::String)),
        _ => Ok(name(value.type_of())),
    }
}

/// A String or a Buffer of so many bytes, at the front of the output.
#[inline]
pub fn concat(left: Value, right: Value, out: &mut [u8]) -> Result<(AmlType, usize), Refusal> {
    match left {
        Value::Integer(_) | Value::Boolean(_) => {
            let (x, y) = both(left, right)?;
            let out = out.first_chunk_mut::<16>().ok_or(Refusal::OUTPUT_TOO_SHORT)?;
            out[..8].copy_from_slice(&x.to_le_bytes());
            out[8..].copy_from_slice(&y.to_le_bytes());
            Ok((AmlType::Buffer, 16))
        }
        Value::Buffer(bytes) => {
            let size = bytes.len() + right.buffer_length()?;
            let out = out.get_mut(..size).ok_or(Refusal::OUTPUT_TOO_SHORT)?;
            let (first, second) = out.split_at_mut(bytes.len());
            first.copy_from_slice(bytes);
            right.as_buffer(second)?;
            Ok((AmlType::Buffer, size))
        }
        _ => {
            let (s, t) = (text(left)?, text(right)?);
            let size = s.len() + t.len();
            let out = out.get_mut(..size).ok_or(Refusal::OUTPUT_TOO_SHORT)?;
            let (first, second) = out.split_at_mut(s.len());
            first.copy_from_slice(s);
            second.copy_from_slice(t);
            Ok((AmlType::String, size))
        }
    }
}

/// The bytes of a buffer without its last two, to an output of that length.
#[inline]
fn put_body(value: Value, out: &mut [u8]) {
    match value {
        Value::Buffer(bytes) => out.copy_from_slice(&bytes[..out.len()]),
        Value::BufferField { buffer, offset, .. } => read_long(buffer, offset as usize, 8 * out.len() as u64, out),
        _ => {}
    }
}

#[inline]
pub fn concat_res(left: Value, right: Value, out: &mut [u8]) -> Result<usize, Refusal> {
    let (n, m) = (left.buffer_length()?, right.buffer_length()?);
    if n == 1 || m == 1 {
        return Err(Refusal::RESOURCE_DESCRIPTOR_TOO_SHORT);
    }
    let (n, m) = (n.saturating_sub(2), m.saturating_sub(2));
    let out = out.get_mut(..n + m + 2).ok_or(Refusal::OUTPUT_TOO_SHORT)?;
    let (body, end) = out.split_at_mut(n + m);
    put_body(left, &mut body[..n]);
    put_body(right, &mut body[n..]);
    let sum = body.iter().fold(0x79u8, |sum, byte| sum.wrapping_add(*byte));
    end[0] = 0x79;
    end[1] = sum.wrapping_neg();
    Ok(n + m + 2)
}

/// Where the part begins, and how many bytes it has.
#[inline]
pub fn mid(source: Value, index: Value, length: Value) -> Result<(usize, usize), Refusal> {
    let (index, length) = both(index, length)?;
    match source {
        Value::String(bytes) | Value::Buffer(bytes) => {
            let at = index.min(bytes.len() as u64);
            Ok((at as usize, length.min(bytes.len() as u64 - at) as usize))
        }
        _ => Err(Refusal::met(5, source.type_of())),
    }
}

#[inline]
pub fn build(size: Value, initial: &[u8], out: &mut [u8]) -> Result<usize, Refusal> {
    let size = size.as_integer()? as usize;
    if size < initial.len() {
        return Err(Refusal::MALFORMED_BUFFER);
    }
    let out = out.get_mut(..size).ok_or(Refusal::OUTPUT_TOO_SHORT)?;
    let (first, rest) = out.split_at_mut(initial.len());
    first.copy_from_slice(initial);
    rest.fill(0);
    Ok(size)
}
