//! What C calls.
use crate::buffers::{self, Content};
use crate::operators;
use crate::regions::{self, Field};
use crate::tables::{Called, Table, Task};
use crate::values::Value;
use crate::{check_size, AmlType, Refusal};

#[repr(C)]
pub struct Answer {
    status: u8,
    present: u8,
    wanted: u8,
    kind: u8,
    count: u32,
    value: u64,
}

pub const INTEGER: u8 = AmlType::Integer as u8;
const STRING: u8 = AmlType::String as u8;
const BUFFER: u8 = AmlType::Buffer as u8;
const BOOLEAN: u8 = 17;

#[inline]
pub fn accepted(kind: u8, count: u32, value: u64) -> Answer {
    Answer { status: 0, present: 0, wanted: 0, kind, count, value }
}

#[inline]
pub fn refused(r: Refusal) -> Answer {
    Answer { status: r.number, present: r.present, wanted: r.wanted, kind: 0, count: 0, value: 0 }
}

#[inline]
fn answer<T>(given: Result<T, Refusal>, said: impl FnOnce(T) -> Answer) -> Answer {
    match given {
        Ok(x) => said(x),
        Err(r) => refused(r),
    }
}

#[inline]
fn integer(given: Result<u64, Refusal>) -> Answer {
    answer(given, |n| accepted(INTEGER, 0, n))
}

#[inline]
fn bytes_of(kind: u8, given: Result<usize, Refusal>) -> Answer {
    answer(given, |n| accepted(kind, 0, n as u64))
}

#[inline]
fn done(given: Result<(), Refusal>) -> Answer {
    answer(given, |()| accepted(0, 0, 0))
}

#[inline]
fn content(given: Content) -> Answer {
    match given {
        Content::Integer(n) => accepted(INTEGER, 0, n),
        Content::Buffer(size) => accepted(BUFFER, 0, size as u64),
    }
}

#[inline]
unsafe fn lent<'a>(bytes: *const u8, size: usize) -> &'a [u8] {
    unsafe { std::slice::from_raw_parts(bytes, size) }
}

#[inline]
unsafe fn lent_mut<'a>(bytes: *mut u8, size: usize) -> &'a mut [u8] {
    unsafe { std::slice::from_raw_parts_mut(bytes, size) }
}

// ---- values

#[derive(Clone, Copy)]
#[repr(C)]
pub struct HostValue {
    kind: u8,
    space: u8,
    flags: u8,
    number: u64,
    offset: u64,
    length: u64,
}

#[inline]
fn named_type(number: u8) -> Result<AmlType, Refusal> {
    Ok(match number {
        1 => AmlType::Integer,
        2 => AmlType::String,
        3 => AmlType::Buffer,
        4 => AmlType::Package,
        5 => AmlType::FieldUnit,
        6 => AmlType::Device,
        8 => AmlType::Method,
        9 => AmlType::Mutex,
        10 => AmlType::OpRegion,
        11 => AmlType::PowerResource,
        12 => AmlType::Processor,
        13 => AmlType::ThermalZone,
        14 => AmlType::BufferField,
        _ => return Err(Refusal::NO_SUCH_KIND),
    })
}

#[inline]
fn value_of<'a>(given: HostValue, bytes: &'a [u8]) -> Result<Value<'a>, Refusal> {
    let HostValue { kind, space, flags, number, offset, length } = given;
    if kind == BOOLEAN {
        return Ok(Value::Boolean(number != 0));
    }
    Ok(match named_type(kind)? {
        AmlType::Integer => Value::Integer(number),
        AmlType::String => Value::String(bytes),
        AmlType::Buffer => Value::Buffer(bytes),
        AmlType::BufferField => Value::BufferField { buffer: bytes, offset, length },
        AmlType::FieldUnit => Value::FieldUnit { region: bytes, field: Field { space, flags, offset, length } },
        kind => Value::Kind(kind),
    })
}

/// A value whose bytes are not too many.
#[inline]
unsafe fn one<'a>(given: HostValue, bytes: *const u8, size: usize) -> Result<Value<'a>, Refusal> {
    let bytes = unsafe { lent(bytes, size) };
    let value = value_of(given, bytes)?;
    check_size(bytes)?;
    Ok(value)
}

/// Two of them: both kinds first, then both sizes.
#[inline]
unsafe fn two<'a>(
    left: HostValue,
    left_bytes: *const u8,
    left_size: usize,
    right: HostValue,
    right_bytes: *const u8,
    right_size: usize,
) -> Result<(Value<'a>, Value<'a>), Refusal> {
    let (left_bytes, right_bytes) = unsafe { (lent(left_bytes, left_size), lent(right_bytes, right_size)) };
    let values = (value_of(left, left_bytes)?, value_of(right, right_bytes)?);
    check_size(left_bytes)?;
    check_size(right_bytes)?;
    Ok(values)
}

/// Calls on one value.
macro_rules! on_one {
    ($($name:ident($value:ident) $body:expr;)*) => { $(
        #[no_mangle]
        pub unsafe extern "C" fn $name(given: HostValue, bytes: *const u8, size: usize) -> Answer {
            answer(unsafe { one(given, bytes, size) }, |$value| $body)
        }
    )* };
}

on_one! {
    ref_as_integer(value) integer(value.as_integer());
    ref_as_bool(value) answer(value.as_bool(), |b| accepted(BOOLEAN, 0, b.into()));
    ref_to_integer(value) integer(value.to_integer());
    ref_as_status(value) integer(value.as_status());
    ref_increment(value) integer(value.as_integer().map(|x| x.wrapping_add(1)));
    ref_decrement(value) integer(value.as_integer().map(|x| x.wrapping_sub(1)));
}

/// Calls on two values.
macro_rules! on_two {
    ($($name:ident($left:ident, $right:ident) $body:expr;)*) => { $(
        #[no_mangle]
        pub unsafe extern "C" fn $name(
            left: HostValue, left_bytes: *const u8, left_size: usize, right: HostValue, right_bytes: *const u8, right_size: usize,
        ) -> Answer {
            answer(unsafe { two(left, left_bytes, left_size, right, right_bytes, right_size) }, |($left, $right)| $body)
        }
    )* };
}

on_two! {
    ref_add(left, right) integer(operators::both(left, right).map(|(x, y)| x.wrapping_add(y)));
    ref_and(left, right) integer(operators::both(left, right).map(|(x, y)| x & y));
    ref_shift_left(left, right) integer(operators::shift_left(left, right));
    ref_shift_right(left, right) integer(operators::shift_right(left, right));
    ref_compare(left, right) integer(operators::compare(left, right).map(|order| (order as i8 + 1) as u64));
}

#[no_mangle]
pub extern "C" fn ref_type_of(given: HostValue) -> Answer {
    answer(value_of(given, &[]), |value| accepted(value.type_of() as u8, 0, 0))
}

#[no_mangle]
pub extern "C" fn ref_default_status() -> u64 {
    0b11111
}

#[no_mangle]
pub unsafe extern "C" fn ref_as_buffer(given: HostValue, bytes: *const u8, size: usize, out: *mut u8, out_size: usize) -> Answer {
    let (value, out) = unsafe { (one(given, bytes, size), lent_mut(out, out_size)) };
    answer(value, |value| bytes_of(BUFFER, value.as_buffer(out)))
}

#[no_mangle]
pub unsafe extern "C" fn ref_as_string(given: HostValue, bytes: *const u8, size: usize, out: *mut u8, out_size: usize) -> Answer {
    let (value, out) = unsafe { (one(given, bytes, size), lent_mut(out, out_size)) };
    answer(value, |value| bytes_of(STRING, value.as_string(out)))
}

#[no_mangle]
pub unsafe extern "C" fn ref_as_type(given: HostValue, bytes: *const u8, size: usize, wanted: u8, out: *mut u8, out_size: usize) -> Answer {
    let (bytes, out) = unsafe { (lent(bytes, size), lent_mut(out, out_size)) };
    let both = value_of(given, bytes).and_then(|value| Ok((value, named_type(wanted)?)));
    answer(both, |(value, wanted)| {
        let given = check_size(bytes).and_then(|()| value.as_type(wanted, out));
        answer(given, |made| made.map_or(accepted(0, 0, 0), content))
    })
}

#[no_mangle]
pub unsafe extern "C" fn ref_mid(
    source: HostValue, bytes: *const u8, size: usize, index: HostValue, index_bytes: *const u8, index_size: usize,
    length: HostValue, length_bytes: *const u8, length_size: usize,
) -> Answer {
    let source_bytes = unsafe { lent(bytes, size) };
    let (index_bytes, length_bytes) = unsafe { (lent(index_bytes, index_size), lent(length_bytes, length_size)) };
    let values = value_of(source, source_bytes).and_then(|source| Ok((source, value_of(index, index_bytes)?, value_of(length, length_bytes)?)));
    let part = values.and_then(|(source, index, length)| {
        check_size(source_bytes)?;
        check_size(index_bytes)?;
        check_size(length_bytes)?;
        operators::mid(source, index, length)
    });
    answer(part, |(at, count)| accepted(source.kind, count as u32, at as u64))
}

// ---- operators with an output

#[no_mangle]
pub unsafe extern "C" fn ref_concat(
    left: HostValue, left_bytes: *const u8, left_size: usize, right: HostValue, right_bytes: *const u8, right_size: usize,
    out: *mut u8, out_size: usize,
) -> Answer {
    let (values, out) = unsafe { (two(left, left_bytes, left_size, right, right_bytes, right_size), lent_mut(out, out_size)) };
    let joined = values.and_then(|(left, right)| operators::concat(left, right, out));
    answer(joined, |(kind, size)| accepted(kind as u8, 0, size as u64))
}

#[no_mangle]
pub unsafe extern "C" fn ref_concat_res(
    left: HostValue, left_bytes: *const u8, left_size: usize, right: HostValue, right_bytes: *const u8, right_size: usize,
    out: *mut u8, out_size: usize,
) -> Answer {
    let (values, out) = unsafe { (two(left, left_bytes, left_size, right, right_bytes, right_size), lent_mut(out, out_size)) };
    bytes_of(BUFFER, values.and_then(|(left, right)| operators::concat_res(left, right, out)))
}

#[no_mangle]
pub unsafe extern "C" fn ref_buffer(
    given: HostValue, bytes: *const u8, size: usize, initial: *const u8, initial_size: usize, out: *mut u8, out_size: usize,
) -> Answer {
    let (value, initial, out) = unsafe { (one(given, bytes, size), lent(initial, initial_size), lent_mut(out, out_size)) };
    let built = value.and_then(|value| check_size(initial).and_then(|()| operators::build(value, initial, out)));
    bytes_of(BUFFER, built)
}

// ---- buffer fields

#[no_mangle]
pub unsafe extern "C" fn ref_read_buffer_field(buffer: *const u8, size: usize, offset: u64, length: u64, out: *mut u8, out_size: usize) -> Answer {
    let (buffer, out) = unsafe { (lent(buffer, size), lent_mut(out, out_size)) };
    answer(buffers::read_buffer_field(buffer, offset, length, out), content)
}

#[no_mangle]
pub unsafe extern "C" fn ref_write_buffer_integer(buffer: *mut u8, size: usize, offset: u64, length: u64, value: u64) -> Answer {
    done(buffers::write_integer(unsafe { lent_mut(buffer, size) }, offset, length, value))
}

#[no_mangle]
pub unsafe extern "C" fn ref_write_buffer_bytes(buffer: *mut u8, size: usize, offset: u64, length: u64, bytes: *const u8, bytes_size: usize) -> Answer {
    let (buffer, bytes) = unsafe { (lent_mut(buffer, size), lent(bytes, bytes_size)) };
    done(buffers::write_bytes(buffer, offset, length, bytes))
}

#[no_mangle]
pub unsafe extern "C" fn ref_write_buffer_field(
    buffer: *mut u8, size: usize, offset: u64, length: u64, given: HostValue, bytes: *const u8, bytes_size: usize,
) -> Answer {
    let (buffer, value) = unsafe { (lent_mut(buffer, size), one(given, bytes, bytes_size)) };
    done(value.and_then(|value| buffers::write_value(buffer, offset, length, value)))
}

#[no_mangle]
pub unsafe extern "C" fn ref_write_buffer_field_self(buffer: *mut u8, size: usize, offset: u64, length: u64) -> Answer {
    done(buffers::write_self(unsafe { lent_mut(buffer, size) }, offset, length))
}

// ---- regions

#[no_mangle]
pub unsafe extern "C" fn ref_load(region: *const u8, size: usize, at: usize, bytes: usize) -> u64 {
    regions::load(unsafe { lent(region, size) }, at, bytes)
}

#[no_mangle]
pub unsafe extern "C" fn ref_store(region: *mut u8, size: usize, at: usize, bytes: usize, value: u64) {
    regions::store(unsafe { lent_mut(region, size) }, at, bytes, value)
}

#[no_mangle]
pub unsafe extern "C" fn ref_read_field(region: *const u8, size: usize, space: u8, flags: u8, offset: u64, length: u64) -> Answer {
    let read = regions::read_field(unsafe { lent(region, size) }, Field { space, flags, offset, length });
    answer(read, |(value, count)| accepted(INTEGER, count, value))
}

#[no_mangle]
pub unsafe extern "C" fn ref_write_field(region: *mut u8, size: usize, space: u8, flags: u8, offset: u64, length: u64, value: u64) -> Answer {
    let written = regions::write_field(unsafe { lent_mut(region, size) }, Field { space, flags, offset, length }, value);
    answer(written, |count| accepted(0, count, 0))
}

/// The field's checks, then the conversion, then the write.
#[inline]
fn write_number(region: &mut [u8], field: Field, number: impl FnOnce(&[u8]) -> Result<u64, Refusal>) -> Answer {
    let number = check_size(region).and_then(|()| regions::plan(field, true, region.len())).and_then(|_| number(region));
    let written = number.and_then(|number| regions::write_field(region, field, number));
    answer(written, |count| accepted(0, count, 0))
}

#[no_mangle]
pub unsafe extern "C" fn ref_write_value(
    region: *mut u8, size: usize, space: u8, flags: u8, offset: u64, length: u64, given: HostValue, bytes: *const u8, bytes_size: usize,
) -> Answer {
    let (region, value) = unsafe { (lent_mut(region, size), one(given, bytes, bytes_size)) };
    answer(value, |value| write_number(region, Field { space, flags, offset, length }, |_| value.as_integer()))
}

#[no_mangle]
pub unsafe extern "C" fn ref_write_value_self(
    region: *mut u8, size: usize, space: u8, flags: u8, offset: u64, length: u64, given: HostValue,
) -> Answer {
    let region = unsafe { lent_mut(region, size) };
    answer(value_of(given, &[]).map(|_| ()), |()| {
        write_number(region, Field { space, flags, offset, length }, |region| value_of(given, region)?.as_integer())
    })
}

// ---- the task table

#[no_mangle]
pub extern "C" fn ref_new_table(size: u64) -> Called {
    Table::new(size)
}

#[no_mangle]
pub extern "C" fn ref_is_malformed(table: Table) -> bool {
    table.is_malformed()
}

#[no_mangle]
pub unsafe extern "C" fn ref_start(
    mut table: Table, region: *const u8, size: usize, task: usize, write: u16, space: u8, flags: u8, offset: u64, length: u64, value: u64,
) -> Called {
    let begun = Task { busy: 1, write: (write != 0).into(), space, flags, offset, length, value, made: 0, held: 0 };
    let started = table.start(unsafe { lent(region, size) }, task, begun);
    Called { table, answer: answer(started, |answer| answer) }
}

#[no_mangle]
pub unsafe extern "C" fn ref_step(mut table: Table, region: *mut u8, size: usize, task: usize) -> Called {
    let stepped = table.step(unsafe { lent_mut(region, size) }, task);
    Called { table, answer: answer(stepped, |answer| answer) }
}
