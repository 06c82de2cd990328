//! ACPI buffer fields, field units, values, operators and a table of four tasks, with the names of the crate aml 0.16.4 where it has them.
//! The work is done by a proved static library (`tools/built link`): every call ends, checks its own arguments and refuses by a [`Refusal`],
//! and a refusal changes no byte.
//!
//! ```
//! use aml_fields::{write_field, FieldFlags, FieldUnit, RegionSpace};
//!
//! // a twelve-bit fill count, whose word has four bits that are not its own
//! let fill_count = FieldUnit { space: RegionSpace::SystemMemory, flags: FieldFlags(2), offset: 0, length: 12 };
//! let mut record = [0xff, 0xff];
//! assert_eq!(write_field(&mut record, fill_count, 0x123), Ok(2));
//! assert_eq!(record, [0x23, 0xf1]);
//! ```
#![no_std]
#![deny(missing_docs)]

mod ffi;
mod refusal;
mod table;
mod value;

pub use refusal::Refusal;
pub use table::{FieldOp, Step, Table, Task};
pub use value::{AmlType, AmlValue, FieldFlags, FieldUnit, OwnBytes, RegionSpace, StatusObject};

use core::cmp::Ordering;
use ffi::Answer;

/// A field unit's value, and how many loads it took.
#[derive(Clone, Copy, Debug, PartialEq, Eq)]
pub struct Read {
    /// the field's bits, lowest first
    pub value: u64,
    /// the loads made, at most 9
    pub count: u32,
}

// ---- field units

/// Reads a field unit of the region.
pub fn read_field(region: &[u8], field: FieldUnit) -> Result<Read, Refusal> {
    let FieldUnit { space, flags, offset, length } = field;
    let a = unsafe { ffi::aml_read_field(region.as_ptr(), region.len(), space.number(), flags.0, offset, length) };
    let a = a.accepted()?;
    Ok(Read { value: a.value, count: a.count })
}

/// Writes the value's lowest bits into a field unit of the region. Answers how many loads and stores that took, at most 11.
pub fn write_field(region: &mut [u8], field: FieldUnit, value: u64) -> Result<u32, Refusal> {
    let FieldUnit { space, flags, offset, length } = field;
    let a = unsafe { ffi::aml_write_field(region.as_mut_ptr(), region.len(), space.number(), flags.0, offset, length, value) };
    Ok(a.accepted()?.count)
}

/// Writes any value that converts to integer.
pub fn write_value(region: &mut [u8], field: FieldUnit, value: AmlValue) -> Result<u32, Refusal> {
    let FieldUnit { space, flags, offset, length } = field;
    let (v, bytes) = value.parts();
    let a = unsafe {
        ffi::aml_write_value(region.as_mut_ptr(), region.len(), space.number(), flags.0, offset, length, v, bytes.as_ptr(), bytes.len())
    };
    Ok(a.accepted()?.count)
}

/// Writes a value whose bytes are the region's own; it is read before anything is stored.
pub fn write_value_self(region: &mut [u8], field: FieldUnit, value: OwnBytes) -> Result<u32, Refusal> {
    let FieldUnit { space, flags, offset, length } = field;
    let a = unsafe { ffi::aml_write_value_self(region.as_mut_ptr(), region.len(), space.number(), flags.0, offset, length, value.parts()) };
    Ok(a.accepted()?.count)
}

/// Loads 1, 2, 4 or 8 bytes of the region, lowest first, by one access of the machine. More than 8 count as 8, those past the end as 0.
pub fn load(region: &[u8], at: usize, bytes: usize) -> u64 {
    unsafe { ffi::aml_load(region.as_ptr(), region.len(), at, bytes) }
}

/// Stores them; nothing past the end.
pub fn store(region: &mut [u8], at: usize, bytes: usize, value: u64) {
    unsafe { ffi::aml_store(region.as_mut_ptr(), region.len(), at, bytes, value) }
}

// ---- buffer fields

/// Reads the field of length bits at bit offset: up to 64 bits give an Integer, more a Buffer at the front of out.
pub fn read_buffer_field<'o>(buffer: &[u8], offset: u64, length: u64, out: &'o mut [u8]) -> Result<AmlValue<'o>, Refusal> {
    let a = unsafe { ffi::aml_read_buffer_field(buffer.as_ptr(), buffer.len(), offset, length, out.as_mut_ptr(), out.len()) };
    Ok(made(a.accepted()?, out))
}

/// Writes an Integer or a Buffer over the whole field, a Boolean over its first bit.
pub fn write_buffer_field(buffer: &mut [u8], offset: u64, length: u64, value: AmlValue) -> Result<(), Refusal> {
    let (v, bytes) = value.parts();
    let a = unsafe { ffi::aml_write_buffer_field(buffer.as_mut_ptr(), buffer.len(), offset, length, v, bytes.as_ptr(), bytes.len()) };
    a.accepted().map(|_| ())
}

/// Writes the buffer itself, as it was before, into a field of it.
pub fn write_buffer_field_self(buffer: &mut [u8], offset: u64, length: u64) -> Result<(), Refusal> {
    let a = unsafe { ffi::aml_write_buffer_field_self(buffer.as_mut_ptr(), buffer.len(), offset, length) };
    a.accepted().map(|_| ())
}

// ---- conversions

impl<'a> AmlValue<'a> {
    /// The value's type; a Boolean's is Integer.
    pub fn type_of(self) -> AmlType {
        match self {
            AmlValue::Boolean(_) | AmlValue::Integer(_) => AmlType::Integer,
            AmlValue::String(_) => AmlType::String,
            AmlValue::Buffer(_) => AmlType::Buffer,
            AmlValue::BufferField { .. } => AmlType::BufferField,
            AmlValue::Field { .. } => AmlType::FieldUnit,
            AmlValue::OpRegion => AmlType::OpRegion,
            AmlValue::Device => AmlType::Device,
            AmlValue::Method => AmlType::Method,
            AmlValue::Processor => AmlType::Processor,
            AmlValue::Mutex => AmlType::Mutex,
            AmlValue::Package => AmlType::Package,
            AmlValue::PowerResource => AmlType::PowerResource,
            AmlValue::ThermalZone => AmlType::ThermalZone,
        }
    }

    /// To integer: a Boolean is all ones or 0, a Buffer its first 8 bytes; fields are read first.
    pub fn as_integer(self) -> Result<u64, Refusal> {
        let (v, b) = self.parts();
        unsafe { ffi::aml_as_integer(v, b.as_ptr(), b.len()) }.number()
    }

    /// To bool: an Integer that is not 0, or a Boolean.
    pub fn as_bool(self) -> Result<bool, Refusal> {
        let (v, b) = self.parts();
        let a = unsafe { ffi::aml_as_bool(v, b.as_ptr(), b.len()) };
        Ok(a.accepted()?.value != 0)
    }

    /// To buffer, at the front of out: a Buffer, or a BufferField over 64 bits.
    pub fn as_buffer(self, out: &mut [u8]) -> Result<&[u8], Refusal> {
        let (v, b) = self.parts();
        let a = unsafe { ffi::aml_as_buffer(v, b.as_ptr(), b.len(), out.as_mut_ptr(), out.len()) };
        Ok(front(a.accepted()?, out))
    }

    /// To string, at the front of out: a String.
    pub fn as_string(self, out: &mut [u8]) -> Result<&[u8], Refusal> {
        let (v, b) = self.parts();
        let a = unsafe { ffi::aml_as_string(v, b.as_ptr(), b.len(), out.as_mut_ptr(), out.len()) };
        Ok(front(a.accepted()?, out))
    }

    /// To a named type: the value itself where it has the type already, else an Integer, or a Buffer at the front of out.
    pub fn as_type<'o>(self, wanted: AmlType, out: &'o mut [u8]) -> Result<AmlValue<'o>, Refusal>
    where
        'a: 'o,
    {
        let (v, b) = self.parts();
        let a = unsafe { ffi::aml_as_type(v, b.as_ptr(), b.len(), wanted.number(), out.as_mut_ptr(), out.len()) };
        let a = a.accepted()?;
        if a.kind == ffi::NO_KIND {
            return Ok(self);
        }
        Ok(made(a, out))
    }

    /// The value of _STA.
    pub fn as_status(self) -> Result<StatusObject, Refusal> {
        let (v, b) = self.parts();
        let a = unsafe { ffi::aml_as_status(v, b.as_ptr(), b.len()) };
        Ok(StatusObject::of_bits(a.accepted()?.value))
    }
}

impl Default for StatusObject {
    /// The status of a device that has no _STA: all five true.
    fn default() -> StatusObject {
        StatusObject::of_bits(unsafe { ffi::aml_default_status() })
    }
}

/// `ToInteger`: an Integer, a Buffer's first 8 bytes, or the number that a String's digits say.
pub fn def_to_integer(value: AmlValue) -> Result<u64, Refusal> {
    let (v, b) = value.parts();
    unsafe { ffi::aml_to_integer(v, b.as_ptr(), b.len()) }.number()
}

// ---- operators

/// `Add`; wraps at 2^64.
pub fn def_add(left: AmlValue, right: AmlValue) -> Result<u64, Refusal> {
    let ((l, s), (r, t)) = (left.parts(), right.parts());
    unsafe { ffi::aml_add(l, s.as_ptr(), s.len(), r, t.as_ptr(), t.len()) }.number()
}

/// `And`, bitwise.
pub fn def_and(left: AmlValue, right: AmlValue) -> Result<u64, Refusal> {
    let ((l, s), (r, t)) = (left.parts(), right.parts());
    unsafe { ffi::aml_and(l, s.as_ptr(), s.len(), r, t.as_ptr(), t.len()) }.number()
}

/// `ShiftLeft`; a count of 64 or more is refused.
pub fn def_shift_left(left: AmlValue, right: AmlValue) -> Result<u64, Refusal> {
    let ((l, s), (r, t)) = (left.parts(), right.parts());
    unsafe { ffi::aml_shift_left(l, s.as_ptr(), s.len(), r, t.as_ptr(), t.len()) }.number()
}

/// `ShiftRight`; a count of 64 or more is refused.
pub fn def_shift_right(left: AmlValue, right: AmlValue) -> Result<u64, Refusal> {
    let ((l, s), (r, t)) = (left.parts(), right.parts());
    unsafe { ffi::aml_shift_right(l, s.as_ptr(), s.len(), r, t.as_ptr(), t.len()) }.number()
}

/// `Increment`; wraps at 2^64. It answers the number, and nothing is stored.
pub fn def_increment(value: AmlValue) -> Result<u64, Refusal> {
    let (v, b) = value.parts();
    unsafe { ffi::aml_increment(v, b.as_ptr(), b.len()) }.number()
}

/// `Decrement`; likewise.
pub fn def_decrement(value: AmlValue) -> Result<u64, Refusal> {
    let (v, b) = value.parts();
    unsafe { ffi::aml_decrement(v, b.as_ptr(), b.len()) }.number()
}

/// Compares two values: the right one is converted to the left one's type, numbers go by size, bytes lexicographically.
pub fn compare(left: AmlValue, right: AmlValue) -> Result<Ordering, Refusal> {
    let ((l, s), (r, t)) = (left.parts(), right.parts());
    let n = unsafe { ffi::aml_compare(l, s.as_ptr(), s.len(), r, t.as_ptr(), t.len()) }.number()?;
    Ok(n.cmp(&1))
}

/// `Mid`: the part of the source's own bytes from index on, of so many bytes where there are as many; as a String or a Buffer, as the source is.
pub fn def_mid<'a>(source: AmlValue<'a>, index: AmlValue, length: AmlValue) -> Result<AmlValue<'a>, Refusal> {
    let ((v, s), (i, is), (n, ns)) = (source.parts(), index.parts(), length.parts());
    let a = unsafe { ffi::aml_mid(v, s.as_ptr(), s.len(), i, is.as_ptr(), is.len(), n, ns.as_ptr(), ns.len()) };
    let a = a.accepted()?;
    let part = &s[a.value as usize..][..a.count as usize];
    Ok(if a.kind == ffi::STRING { AmlValue::String(part) } else { AmlValue::Buffer(part) })
}

/// `Concat`, at the front of out: a Buffer of two numbers, a Buffer, or a String.
pub fn def_concat<'o>(left: AmlValue, right: AmlValue, out: &'o mut [u8]) -> Result<AmlValue<'o>, Refusal> {
    let ((l, s), (r, t)) = (left.parts(), right.parts());
    let a = unsafe { ffi::aml_concat(l, s.as_ptr(), s.len(), r, t.as_ptr(), t.len(), out.as_mut_ptr(), out.len()) };
    Ok(made(a.accepted()?, out))
}

/// `ConcatRes`, at the front of out.
pub fn def_concat_res<'o>(left: AmlValue, right: AmlValue, out: &'o mut [u8]) -> Result<&'o [u8], Refusal> {
    let ((l, s), (r, t)) = (left.parts(), right.parts());
    let a = unsafe { ffi::aml_concat_res(l, s.as_ptr(), s.len(), r, t.as_ptr(), t.len(), out.as_mut_ptr(), out.len()) };
    Ok(front(a.accepted()?, out))
}

/// `Buffer`, at the front of out: the initial bytes, then zeros, as many as the size says.
pub fn def_buffer<'o>(size: AmlValue, initial: &[u8], out: &'o mut [u8]) -> Result<&'o [u8], Refusal> {
    let (v, b) = size.parts();
    let a = unsafe { ffi::aml_buffer(v, b.as_ptr(), b.len(), initial.as_ptr(), initial.len(), out.as_mut_ptr(), out.len()) };
    Ok(front(a.accepted()?, out))
}

// ---- what an answer gives

fn front(a: Answer, out: &[u8]) -> &[u8] {
    &out[..a.value as usize]
}

fn made(a: Answer, out: &[u8]) -> AmlValue<'_> {
    match a.kind {
        ffi::STRING => AmlValue::String(front(a, out)),
        ffi::BUFFER => AmlValue::Buffer(front(a, out)),
        _ => AmlValue::Integer(a.value),
    }
}
