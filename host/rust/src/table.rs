use crate::ffi;
use crate::refusal::Refusal;
use crate::value::FieldUnit;

/// One task's numbers. Only the calls of [`Table`] change them with sense.
#[repr(C)]
#[derive(Clone, Copy, Debug, PartialEq, Eq)]
pub struct Task {
    /// 0 or 1
    pub busy: u32,
    /// 0 of a read, 1 of a write
    pub write: u16,
    /// its field's region space
    pub space: u8,
    /// its field's flags
    pub flags: u8,
    /// its field's offset in bits
    pub offset: u64,
    /// its field's length in bits
    pub length: u64,
    /// what it writes
    pub value: u64,
    /// its loads and stores so far
    pub made: u64,
    /// what its loads gave
    pub held: u64,
}

/// Up to four tasks on one region, a load or store a step. It is numbers alone, so a host may keep it where it likes; a damaged one is refused, 31.
#[repr(C)]
#[derive(Clone, Copy, Debug, PartialEq, Eq)]
pub struct Table {
    /// the region's length in bytes
    pub size: u64,
    /// the task that has the lock, 4 for none
    pub holder: u64,
    /// the tasks
    pub tasks: [Task; 4],
}

/// What a task is started with.
#[derive(Clone, Copy, Debug, PartialEq, Eq)]
pub enum FieldOp {
    /// a read of the field
    Read(FieldUnit),
    /// a write of the number's lowest bits
    Write(FieldUnit, u64),
}

/// What an accepted step answers.
#[derive(Clone, Copy, Debug, PartialEq, Eq)]
pub enum Step {
    /// more loads and stores to come
    More,
    /// a write's last store was made
    Done,
    /// a read's last load was made: its value
    Value(u64),
}

impl Table {
    /// A table for a region of so many bytes, at most 65,536.
    pub fn new(size: u64) -> Result<Table, Refusal> {
        let called = unsafe { ffi::aml_new_table(size) };
        called.answer.accepted().map(|_| called.table)
    }

    /// Accepts an operation for the task. Answers how many loads and stores it will make.
    pub fn start(&mut self, region: &[u8], task: usize, op: FieldOp) -> Result<u32, Refusal> {
        let (write, field, value) = match op {
            FieldOp::Read(field) => (0, field, 0),
            FieldOp::Write(field, value) => (1, field, value),
        };
        let FieldUnit { space, flags, offset, length } = field;
        let called = unsafe { ffi::aml_start(*self, region.as_ptr(), region.len(), task, write, space.number(), flags.0, offset, length, value) };
        *self = called.table;
        Ok(called.answer.accepted()?.count)
    }

    /// Makes the task's next load or store on the region, and nothing else.
    pub fn step(&mut self, region: &mut [u8], task: usize) -> Result<Step, Refusal> {
        let called = unsafe { ffi::aml_step(*self, region.as_mut_ptr(), region.len(), task) };
        *self = called.table;
        let a = called.answer.accepted()?;
        Ok(match (a.count, a.kind) {
            (0, ffi::NO_KIND) => Step::Done,
            (0, _) => Step::Value(a.value),
            _ => Step::More,
        })
    }

    /// Is it damaged: would every start and step be refused, 31?
    pub fn is_malformed(&self) -> bool {
        unsafe { ffi::aml_is_malformed(*self) }
    }
}
