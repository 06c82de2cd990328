//! The same calls in hand-written safe Rust: the same refusals in the same order, the same answers, the same bytes after. The bench measures the
//! proved library against this. Only the functions of `host` are unsafe: they make slices of what C passes.
mod bits;
mod buffers;
mod host;
mod operators;
mod regions;
mod tables;
mod values;

const MOST_BYTES: usize = 65536;

/// Why a call was refused: the number, and the types that go with it.
#[derive(Clone, Copy)]
struct Refusal {
    number: u8,
    present: u8,
    wanted: u8,
}

impl Refusal {
    const OUT_OF_BOUNDS: Refusal = Refusal::plain(2);
    const RESOURCE_DESCRIPTOR_TOO_SHORT: Refusal = Refusal::plain(6);
    const INVALID_SHIFT_LEFT: Refusal = Refusal::plain(7);
    const INVALID_SHIFT_RIGHT: Refusal = Refusal::plain(8);
    const INVALID_FIELD_FLAGS: Refusal = Refusal::plain(9);
    const INVALID_STATUS_OBJECT: Refusal = Refusal::plain(10);
    const MALFORMED_BUFFER: Refusal = Refusal::plain(11);
    const OUTPUT_TOO_SHORT: Refusal = Refusal::plain(20);
    const FIELD_UNIT_LENGTH: Refusal = Refusal::plain(21);
    const FIELD_UNIT_OUTSIDE_REGION: Refusal = Refusal::plain(22);
    const LOCK_HELD: Refusal = Refusal::plain(23);
    const NO_SUCH_TASK: Refusal = Refusal::plain(24);
    const TASK_BUSY: Refusal = Refusal::plain(25);
    const TASK_IDLE: Refusal = Refusal::plain(26);
    const TOO_MANY_BYTES: Refusal = Refusal::plain(27);
    const UNSUPPORTED_REGION_SPACE: Refusal = Refusal::plain(28);
    const QWORD_ACCESS_IN_SPACE: Refusal = Refusal::plain(29);
    const REGION_LENGTH_DIFFERS: Refusal = Refusal::plain(30);
    const MALFORMED_TABLE: Refusal = Refusal::plain(31);
    const NO_SUCH_KIND: Refusal = Refusal::plain(255);

    const fn plain(number: u8) -> Refusal {
        Refusal { number, present: 0, wanted: 0 }
    }

    fn conversion(current: AmlType, target: AmlType) -> Refusal {
        Refusal { number: 1, present: current as u8, wanted: target as u8 }
    }

    fn met(number: u8, met: AmlType) -> Refusal {
        Refusal { number, present: met as u8, wanted: 0 }
    }
}

/// By ACPI's numbers.
#[derive(Clone, Copy, PartialEq)]
enum AmlType {
    Integer = 1,
    String = 2,
    Buffer = 3,
    Package = 4,
    FieldUnit = 5,
    Device = 6,
    Method = 8,
    Mutex = 9,
    OpRegion = 10,
    PowerResource = 11,
    Processor = 12,
    ThermalZone = 13,
    BufferField = 14,
}

/// 27: no lent slice is longer.
#[inline]
fn check_size(bytes: &[u8]) -> Result<(), Refusal> {
    if bytes.len() > MOST_BYTES {
        return Err(Refusal::TOO_MANY_BYTES);
    }
    Ok(())
}
