use crate::ffi::Answer;
use crate::value::AmlType;

/// Why a call was refused.
#[derive(Clone, Copy, Debug, PartialEq, Eq)]
pub enum Refusal {
    /// 1: no conversion leads to the wanted type, or a text says no number
    IncompatibleValueConversion {
        /// the type of the value where the conversion stopped
        current: AmlType,
        /// the type wanted
        target: AmlType,
    },
    /// 2: the field reaches past its buffer
    BufferFieldIndexesOutOfBounds,
    /// 3: the type met cannot be written to a buffer field
    TypeCannotBeWrittenToBufferField(AmlType),
    /// 4: the type met cannot be compared
    TypeCannotBeCompared(AmlType),
    /// 5: the type met cannot be sliced
    TypeCannotBeSliced(AmlType),
    /// 6: an operand of `ConcatRes` has one byte
    ResourceDescriptorTooShort,
    /// 7: a count of 64 or more
    InvalidShiftLeft,
    /// 8: a count of 64 or more
    InvalidShiftRight,
    /// 9: an access type over 5, or update rule 3 of a write
    InvalidFieldFlags,
    /// 10: no Integer, or one with a bit from 5 up
    InvalidStatusObject,
    /// 11: a buffer's size is below its initial bytes
    MalformedBuffer,
    /// 20: the output is shorter than the result
    OutputTooShort,
    /// 21: a field unit of no bits, or of more than 64
    FieldUnitLength,
    /// 22: an access unit of the field is not whole inside the region
    FieldUnitOutsideRegion,
    /// 23: another task has the lock
    LockHeld,
    /// 24: a task number over 3
    NoSuchTask,
    /// 25: the task is busy
    TaskBusy,
    /// 26: the task is idle
    TaskIdle,
    /// 27: more than 65,536 bytes are lent
    TooManyBytes,
    /// 28: the region's space is none of SystemMemory, SystemIo, PciConfig
    UnsupportedRegionSpace,
    /// 29: 64-bit access in SystemIo or PciConfig
    QWordAccessInSpace,
    /// 30: the region's length is not the table's
    RegionLengthDiffers,
    /// 31: the table is damaged
    MalformedTable,
    /// a number that no call of this version gives
    Other(u8),
}

impl Refusal {
    pub(crate) fn of_answer(a: Answer) -> Refusal {
        let types = (AmlType::of_number(a.present), AmlType::of_number(a.wanted));
        match (a.status, types) {
            (1, (Some(current), Some(target))) => Refusal::IncompatibleValueConversion { current, target },
            (2, _) => Refusal::BufferFieldIndexesOutOfBounds,
            (3, (Some(met), _)) => Refusal::TypeCannotBeWrittenToBufferField(met),
            (4, (Some(met), _)) => Refusal::TypeCannotBeCompared(met),
            (5, (Some(met), _)) => Refusal::TypeCannotBeSliced(met),
            (6, _) => Refusal::ResourceDescriptorTooShort,
            (7, _) => Refusal::InvalidShiftLeft,
            (8, _) => Refusal::InvalidShiftRight,
            (9, _) => Refusal::InvalidFieldFlags,
            (10, _) => Refusal::InvalidStatusObject,
            (11, _) => Refusal::MalformedBuffer,
            (20, _) => Refusal::OutputTooShort,
            (21, _) => Refusal::FieldUnitLength,
            (22, _) => Refusal::FieldUnitOutsideRegion,
            (23, _) => Refusal::LockHeld,
            (24, _) => Refusal::NoSuchTask,
            (25, _) => Refusal::TaskBusy,
            (26, _) => Refusal::TaskIdle,
            (27, _) => Refusal::TooManyBytes,
            (28, _) => Refusal::UnsupportedRegionSpace,
            (29, _) => Refusal::QWordAccessInSpace,
            (30, _) => Refusal::RegionLengthDiffers,
            (31, _) => Refusal::MalformedTable,
            (other, _) => Refusal::Other(other),
        }
    }

    /// The refusal's number.
    pub fn number(self) -> u8 {
        match self {
            Refusal::IncompatibleValueConversion { .. } => 1,
            Refusal::BufferFieldIndexesOutOfBounds => 2,
            Refusal::TypeCannotBeWrittenToBufferField(_) => 3,
            Refusal::TypeCannotBeCompared(_) => 4,
            Refusal::TypeCannotBeSliced(_) => 5,
            Refusal::ResourceDescriptorTooShort => 6,
            Refusal::InvalidShiftLeft => 7,
            Refusal::InvalidShiftRight => 8,
            Refusal::InvalidFieldFlags => 9,
            Refusal::InvalidStatusObject => 10,
            Refusal::MalformedBuffer => 11,
            Refusal::OutputTooShort => 20,
            Refusal::FieldUnitLength => 21,
            Refusal::FieldUnitOutsideRegion => 22,
            Refusal::LockHeld => 23,
            Refusal::NoSuchTask => 24,
            Refusal::TaskBusy => 25,
            Refusal::TaskIdle => 26,
            Refusal::TooManyBytes => 27,
            Refusal::UnsupportedRegionSpace => 28,
            Refusal::QWordAccessInSpace => 29,
            Refusal::RegionLengthDiffers => 30,
            Refusal::MalformedTable => 31,
            Refusal::Other(number) => number,
        }
    }
}
