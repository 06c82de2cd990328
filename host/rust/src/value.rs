use crate::ffi;
use crate::ffi::Value;

/// The address space of a region.
#[derive(Clone, Copy, Debug, PartialEq, Eq)]
pub enum RegionSpace {
    /// memory
    SystemMemory,
    /// I/O ports
    SystemIo,
    /// PCI configuration
    PciConfig,
    /// any other, by ACPI's number; a field there is refused, 28
    Other(u8),
}

impl RegionSpace {
    pub(crate) fn number(self) -> u8 {
        match self {
            RegionSpace::SystemMemory => 0,
            RegionSpace::SystemIo => 1,
            RegionSpace::PciConfig => 2,
            RegionSpace::Other(number) => number,
        }
    }
}

/// A field's flags byte: bits 0 to 3 access type, 4 lock rule, 5 and 6 update rule.
#[derive(Clone, Copy, Debug, PartialEq, Eq)]
pub struct FieldFlags(pub u8);

/// A field of a region.
#[derive(Clone, Copy, Debug, PartialEq, Eq)]
pub struct FieldUnit {
    /// where the region lies
    pub space: RegionSpace,
    /// access type, lock rule, update rule
    pub flags: FieldFlags,
    /// in bits
    pub offset: u64,
    /// in bits, 1 to 64
    pub length: u64,
}

macro_rules! types {
    ($($name:ident = $number:literal),*) => {
        /// A value's type.
        #[derive(Clone, Copy, Debug, PartialEq, Eq)]
        pub enum AmlType {
            $(#[doc = concat!("ACPI's number ", $number)] $name = $number),*
        }

        impl AmlType {
            /// ACPI's number of the type, as ObjectType gives it.
            pub fn number(self) -> u8 {
                self as u8
            }

            pub(crate) fn of_number(number: u8) -> Option<AmlType> {
                match number {
                    $($number => Some(AmlType::$name),)*
                    _ => None,
                }
            }
        }
    };
}
types!(Integer = 1, String = 2, Buffer = 3, Package = 4, FieldUnit = 5, Device = 6, Method = 8, Mutex = 9, OpRegion = 10, PowerResource = 11, Processor = 12, ThermalZone = 13, BufferField = 14);

/// A value with the bytes that belong to it.
#[derive(Clone, Copy, Debug, PartialEq, Eq)]
pub enum AmlValue<'a> {
    /// true or false
    Boolean(bool),
    /// 64 bits
    Integer(u64),
    /// its bytes
    String(&'a [u8]),
    /// its bytes
    Buffer(&'a [u8]),
    /// a field of a buffer
    BufferField {
        /// the buffer
        buffer: &'a [u8],
        /// in bits
        offset: u64,
        /// in bits
        length: u64,
    },
    /// a field of a region
    Field {
        /// the region
        region: &'a [u8],
        /// which field of it
        unit: FieldUnit,
    },
    /// a kind without content
    OpRegion,
    /// a kind without content
    Device,
    /// a kind without content
    Method,
    /// a kind without content
    Processor,
    /// a kind without content
    Mutex,
    /// a kind without content
    Package,
    /// a kind without content
    PowerResource,
    /// a kind without content
    ThermalZone,
}

const NOTHING: Value = Value { kind: 0, space: 0, flags: 0, number: 0, offset: 0, length: 0 };

fn of_kind(kind: u8) -> Value {
    Value { kind, ..NOTHING }
}

fn buffer_field(offset: u64, length: u64) -> Value {
    Value { kind: ffi::BUFFER_FIELD, offset, length, ..NOTHING }
}

fn field_unit(unit: FieldUnit) -> Value {
    Value { kind: ffi::FIELD_UNIT, space: unit.space.number(), flags: unit.flags.0, number: 0, offset: unit.offset, length: unit.length }
}

impl<'a> AmlValue<'a> {
    // its numbers, and the bytes lent beside them
    pub(crate) fn parts(self) -> (Value, &'a [u8]) {
        match self {
            AmlValue::Boolean(b) => (Value { kind: ffi::BOOLEAN, number: b as u64, ..NOTHING }, &[]),
            AmlValue::Integer(number) => (Value { kind: ffi::INTEGER, number, ..NOTHING }, &[]),
            AmlValue::String(bytes) => (of_kind(ffi::STRING), bytes),
            AmlValue::Buffer(bytes) => (of_kind(ffi::BUFFER), bytes),
            AmlValue::BufferField { buffer, offset, length } => (buffer_field(offset, length), buffer),
            AmlValue::Field { region, unit } => (field_unit(unit), region),
            contentless => (of_kind(contentless.type_of().number()), &[]),
        }
    }
}

/// A value whose bytes are those of the region that is written.
#[derive(Clone, Copy, Debug, PartialEq, Eq)]
pub enum OwnBytes {
    /// the whole region as a Buffer
    Buffer,
    /// a BufferField of it
    BufferField {
        /// in bits
        offset: u64,
        /// in bits
        length: u64,
    },
    /// a FieldUnit of it
    Field(FieldUnit),
}

impl OwnBytes {
    pub(crate) fn parts(self) -> Value {
        match self {
            OwnBytes::Buffer => of_kind(ffi::BUFFER),
            OwnBytes::BufferField { offset, length } => buffer_field(offset, length),
            OwnBytes::Field(unit) => field_unit(unit),
        }
    }
}

/// What _STA says of a device.
#[derive(Clone, Copy, Debug, PartialEq, Eq)]
pub struct StatusObject {
    /// bit 0
    pub present: bool,
    /// bit 1
    pub enabled: bool,
    /// bit 2
    pub show_in_ui: bool,
    /// bit 3
    pub functional: bool,
    /// bit 4
    pub battery_present: bool,
}

impl StatusObject {
    pub(crate) fn of_bits(bits: u64) -> StatusObject {
        StatusObject {
            present: bits & 1 != 0,
            enabled: bits & 2 != 0,
            show_in_ui: bits & 4 != 0,
            functional: bits & 8 != 0,
            battery_present: bits & 16 != 0,
        }
    }
}
