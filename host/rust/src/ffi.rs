// The library's functions, as ../include/aml.h says them. Each may be called with any numbers; slices are lent for the call.
use crate::refusal::Refusal;
use crate::table::Table;

pub const NO_KIND: u8 = 0;
pub const INTEGER: u8 = 1;
pub const STRING: u8 = 2;
pub const BUFFER: u8 = 3;
pub const FIELD_UNIT: u8 = 5;
pub const BUFFER_FIELD: u8 = 14;
pub const BOOLEAN: u8 = 17;

#[repr(C)]
#[derive(Clone, Copy)]
pub struct Answer {
    pub status: u8,
    pub present: u8,
    pub wanted: u8,
    pub kind: u8,
    pub count: u32,
    pub value: u64,
}

impl Answer {
    // the answer itself, or why there is none
    pub fn accepted(self) -> Result<Answer, Refusal> {
        if self.status == 0 {
            return Ok(self);
        }
        Err(Refusal::of_answer(self))
    }

    pub fn number(self) -> Result<u64, Refusal> {
        Ok(self.accepted()?.value)
    }
}

#[repr(C)]
#[derive(Clone, Copy)]
pub struct Value {
    pub kind: u8,
    pub space: u8,
    pub flags: u8,
    pub number: u64,
    pub offset: u64,
    pub length: u64,
}

#[repr(C)]
pub struct Called {
    pub table: Table,
    pub answer: Answer,
}

const _: () = assert!(core::mem::size_of::<Answer>() == 16);
const _: () = assert!(core::mem::size_of::<Value>() == 32);
const _: () = assert!(core::mem::size_of::<Table>() == 208);
const _: () = assert!(core::mem::size_of::<Called>() == 224);

extern "C" {
    pub fn aml_as_integer(value: Value, bytes: *const u8, bytes_len: usize) -> Answer;
    pub fn aml_as_bool(value: Value, bytes: *const u8, bytes_len: usize) -> Answer;
    pub fn aml_as_buffer(value: Value, bytes: *const u8, bytes_len: usize, out: *mut u8, out_len: usize) -> Answer;
    pub fn aml_as_string(value: Value, bytes: *const u8, bytes_len: usize, out: *mut u8, out_len: usize) -> Answer;
    pub fn aml_as_type(value: Value, bytes: *const u8, bytes_len: usize, wanted: u8, out: *mut u8, out_len: usize) -> Answer;
    pub fn aml_to_integer(value: Value, bytes: *const u8, bytes_len: usize) -> Answer;
    pub fn aml_as_status(value: Value, bytes: *const u8, bytes_len: usize) -> Answer;
    pub fn aml_default_status() -> u64;

    pub fn aml_read_buffer_field(buffer: *const u8, buffer_len: usize, offset: u64, length: u64, out: *mut u8, out_len: usize) -> Answer;
    pub fn aml_write_buffer_field(buffer: *mut u8, buffer_len: usize, offset: u64, length: u64, value: Value, bytes: *const u8, bytes_len: usize) -> Answer;
    pub fn aml_write_buffer_field_self(buffer: *mut u8, buffer_len: usize, offset: u64, length: u64) -> Answer;

    pub fn aml_read_field(region: *const u8, region_len: usize, space: u8, flags: u8, offset: u64, length: u64) -> Answer;
    pub fn aml_write_field(region: *mut u8, region_len: usize, space: u8, flags: u8, offset: u64, length: u64, value: u64) -> Answer;
    pub fn aml_write_value(region: *mut u8, region_len: usize, space: u8, flags: u8, offset: u64, length: u64, value: Value, bytes: *const u8, bytes_len: usize) -> Answer;
    pub fn aml_write_value_self(region: *mut u8, region_len: usize, space: u8, flags: u8, offset: u64, length: u64, value: Value) -> Answer;
    pub fn aml_load(region: *const u8, region_len: usize, at: usize, bytes: usize) -> u64;
    pub fn aml_store(region: *mut u8, region_len: usize, at: usize, bytes: usize, value: u64);

    pub fn aml_add(left: Value, left_bytes: *const u8, left_len: usize, right: Value, right_bytes: *const u8, right_len: usize) -> Answer;
    pub fn aml_and(left: Value, left_bytes: *const u8, left_len: usize, right: Value, right_bytes: *const u8, right_len: usize) -> Answer;
    pub fn aml_shift_left(left: Value, left_bytes: *const u8, left_len: usize, right: Value, right_bytes: *const u8, right_len: usize) -> Answer;
    pub fn aml_shift_right(left: Value, left_bytes: *const u8, left_len: usize, right: Value, right_bytes: *const u8, right_len: usize) -> Answer;
    pub fn aml_increment(value: Value, bytes: *const u8, bytes_len: usize) -> Answer;
    pub fn aml_decrement(value: Value, bytes: *const u8, bytes_len: usize) -> Answer;
    pub fn aml_compare(left: Value, left_bytes: *const u8, left_len: usize, right: Value, right_bytes: *const u8, right_len: usize) -> Answer;
    pub fn aml_mid(source: Value, source_bytes: *const u8, source_len: usize, index: Value, index_bytes: *const u8, index_len: usize, length: Value, length_bytes: *const u8, length_len: usize) -> Answer;
    pub fn aml_concat(left: Value, left_bytes: *const u8, left_len: usize, right: Value, right_bytes: *const u8, right_len: usize, out: *mut u8, out_len: usize) -> Answer;
    pub fn aml_concat_res(left: Value, left_bytes: *const u8, left_len: usize, right: Value, right_bytes: *const u8, right_len: usize, out: *mut u8, out_len: usize) -> Answer;
    pub fn aml_buffer(size: Value, size_bytes: *const u8, size_len: usize, initial: *const u8, initial_len: usize, out: *mut u8, out_len: usize) -> Answer;

    pub fn aml_new_table(size: u64) -> Called;
    pub fn aml_start(table: Table, region: *const u8, region_len: usize, task: usize, write: u16, space: u8, flags: u8, offset: u64, length: u64, value: u64) -> Called;
    pub fn aml_step(table: Table, region: *mut u8, region_len: usize, task: usize) -> Called;
    pub fn aml_is_malformed(table: Table) -> bool;
}
