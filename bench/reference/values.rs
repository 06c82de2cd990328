//! Values and what they convert to.
use crate::bits::{get_bits, word};
use crate::buffers::{check_bounds, read_buffer_field, Content};
use crate::regions::{read_field, Field};
use crate::{AmlType, Refusal};

/// A value with the bytes that are lent beside it. A kind that has no content is its type.
#[derive(Clone, Copy)]
pub enum Value<'a> {
    Boolean(bool),
    Integer(u64),
    String(&'a [u8]),
    Buffer(&'a [u8]),
    BufferField { buffer: &'a [u8], offset: u64, length: u64 },
    FieldUnit { region: &'a [u8], field: Field },
    Kind(AmlType),
}

impl<'a> Value<'a> {
    #[inline]
    pub fn type_of(self) -> AmlType {
        match self {
            Value::Boolean(_) | Value::Integer(_) => AmlType::Integer,
            Value::String(_) => AmlType::String,
            Value::Buffer(_) => AmlType::Buffer,
            Value::BufferField { .. } => AmlType::BufferField,
            Value::FieldUnit { .. } => AmlType::FieldUnit,
            Value::Kind(kind) => kind,
        }
    }

    #[inline]
    fn not(self, wanted: AmlType) -> Refusal {
        Refusal::conversion(self.type_of(), wanted)
    }

    #[inline]
    pub fn as_integer(self) -> Result<u64, Refusal> {
        match self {
            Value::Boolean(b) => Ok(if b { u64::MAX } else { 0 }),
            Value::Integer(n) => Ok(n),
            Value::Buffer(bytes) => Ok(word(bytes, 0)),
            Value::BufferField { buffer, offset, length } => {
                check_bounds(buffer.len(), offset, length)?;
                Ok(get_bits(buffer, offset as usize, length.min(64)))
            }
            Value::FieldUnit { region, field } => Ok(read_field(region, field)?.0),
            other => Err(other.not(AmlType::Integer)),
        }
    }

    #[inline]
    pub fn as_bool(self) -> Result<bool, Refusal> {
        match self {
            Value::Boolean(b) => Ok(b),
            Value::Integer(n) => Ok(n != 0),
            other => Err(other.not(AmlType::Integer)),
        }
    }

    /// How many bytes it has as a Buffer.
    #[inline]
    pub fn buffer_length(self) -> Result<usize, Refusal> {
        match self {
            Value::Buffer(bytes) => Ok(bytes.len()),
            Value::BufferField { buffer, offset, length } => {
                check_bounds(buffer.len(), offset, length)?;
                if length <= 64 {
                    return Err(Refusal::conversion(AmlType::Integer, AmlType::Buffer));
                }
                Ok(length.div_ceil(8) as usize)
            }
            other => Err(other.read_as(AmlType::Buffer)),
        }
    }

    /// Why it does not convert to Buffer or String: a FieldUnit is read first, and gives an Integer.
    #[inline]
    pub fn read_as(self, wanted: AmlType) -> Refusal {
        match self {
            Value::FieldUnit { region, field } => match read_field(region, field) {
                Ok(_) => Refusal::conversion(AmlType::Integer, wanted),
                Err(refusal) => refusal,
            },
            other => other.not(wanted),
        }
    }

    #[inline]
    pub fn as_buffer(self, out: &mut [u8]) -> Result<usize, Refusal> {
        match self {
            Value::Buffer(bytes) => give(bytes, out),
            Value::BufferField { buffer, offset, length } => match read_buffer_field(buffer, offset, length, out)? {
                Content::Buffer(size) => Ok(size),
                Content::Integer(_) => Err(Refusal::conversion(AmlType::Integer, AmlType::Buffer)),
            },
            other => Err(other.read_as(AmlType::Buffer)),
        }
    }

    #[inline]
    pub fn as_string(self, out: &mut [u8]) -> Result<usize, Refusal> {
        match self {
            Value::String(bytes) => give(bytes, out),
            other => Err(other.read_as(AmlType::String)),
        }
    }

    /// None where it has the type already.
    #[inline]
    pub fn as_type(self, wanted: AmlType, out: &mut [u8]) -> Result<Option<Content>, Refusal> {
        if self.type_of() == wanted {
            return Ok(None);
        }
        match wanted {
            AmlType::Integer => Ok(Some(Content::Integer(self.as_integer()?))),
            AmlType::Buffer => Ok(Some(Content::Buffer(self.as_buffer(out)?))),
            _ => Err(self.not(wanted)),
        }
    }

    #[inline]
    pub fn to_integer(self) -> Result<u64, Refusal> {
        match self {
            Value::Integer(n) => Ok(n),
            Value::Buffer(bytes) => Ok(word(bytes, 0)),
            Value::String(text) => text_number(text).ok_or(self.not(AmlType::Integer)),
            other => Err(other.not(AmlType::Integer)),
        }
    }

    /// By bits 0 to 4.
    #[inline]
    pub fn as_status(self) -> Result<u64, Refusal> {
        match self {
            Value::Integer(n) if n < 32 => Ok(n),
            _ => Err(Refusal::INVALID_STATUS_OBJECT),
        }
    }
}

#[inline]
fn give(bytes: &[u8], out: &mut [u8]) -> Result<usize, Refusal> {
    out.get_mut(..bytes.len()).ok_or(Refusal::OUTPUT_TOO_SHORT)?.copy_from_slice(bytes);
    Ok(bytes.len())
}

/// Decimal digits, or 0x and hex digits.
#[inline]
fn text_number(text: &[u8]) -> Option<u64> {
    let (digits, base) = match text.strip_prefix(b"0x") {
        Some(digits) => (digits, 16),
        None => (text, 10),
    };
    if digits.is_empty() {
        return None;
    }
    digits.iter().try_fold(0u64, |n, c| {
        let digit = char::from(*c).to_digit(base)?;
        n.checked_mul(base.into())?.checked_add(digit.into())
    })
}
