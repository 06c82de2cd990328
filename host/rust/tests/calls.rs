//! Every function, called from Rust with an answer that document 01 gives.
use aml_fields::*;
use std::cmp::Ordering;

const WORD: FieldUnit = FieldUnit { space: RegionSpace::SystemMemory, flags: FieldFlags(2), offset: 0, length: 12 };

fn conversion(current: AmlType, target: AmlType) -> Refusal {
    Refusal::IncompatibleValueConversion { current, target }
}

#[test]
fn conversions() {
    let mut out = [0; 16];
    let nine = [1, 2, 3, 4, 5, 6, 7, 8, 9];
    assert_eq!(AmlValue::Boolean(true).type_of(), AmlType::Integer);
    assert_eq!(AmlValue::Boolean(true).as_integer(), Ok(u64::MAX));
    assert_eq!(AmlValue::Buffer(&nine).as_integer(), Ok(0x0807060504030201));
    assert_eq!(AmlValue::BufferField { buffer: &nine, offset: 4, length: 8 }.as_integer(), Ok(0x20));
    assert_eq!(AmlValue::Field { region: &nine, unit: WORD }.as_integer(), Ok(0x201));
    assert_eq!(AmlValue::String(b"1").as_integer(), Err(conversion(AmlType::String, AmlType::Integer)));
    assert_eq!(AmlValue::Integer(7).as_bool(), Ok(true));
    assert_eq!(AmlValue::Device.as_bool(), Err(conversion(AmlType::Device, AmlType::Integer)));
    assert_eq!(AmlValue::Buffer(&nine).as_buffer(&mut out), Ok(&nine[..]));
    assert_eq!(AmlValue::Buffer(&nine).as_buffer(&mut out[..8]), Err(Refusal::OutputTooShort));
    assert_eq!(AmlValue::String(b"ab").as_string(&mut out), Ok(&b"ab"[..]));
    assert_eq!(AmlValue::Mutex.as_type(AmlType::Mutex, &mut out), Ok(AmlValue::Mutex));
    assert_eq!(AmlValue::Buffer(&nine[..1]).as_type(AmlType::Integer, &mut out), Ok(AmlValue::Integer(1)));
    assert_eq!(AmlValue::Integer(0x15).as_status().map(|s| (s.present, s.enabled, s.battery_present)), Ok((true, false, true)));
    assert!(StatusObject::default().functional && StatusObject::default().enabled);
    assert_eq!(def_to_integer(AmlValue::String(b"0x1F")), Ok(31));
}

#[test]
fn fields() {
    let mut out = [0; 16];
    let mut buffer = [1, 2, 3, 4, 5, 6, 7, 8, 9];
    assert_eq!(read_buffer_field(&buffer, 4, 8, &mut out), Ok(AmlValue::Integer(0x20)));
    assert_eq!(read_buffer_field(&buffer, 8, 65, &mut out), Err(Refusal::BufferFieldIndexesOutOfBounds));
    assert_eq!(read_buffer_field(&buffer, 0, 72, &mut out), Ok(AmlValue::Buffer(&[1, 2, 3, 4, 5, 6, 7, 8, 9])));
    assert_eq!(write_buffer_field(&mut buffer, 0, 16, AmlValue::Buffer(&[7])), Ok(()));
    assert_eq!(write_buffer_field_self(&mut buffer, 8, 64), Ok(()));
    assert_eq!(buffer, [7, 7, 0, 3, 4, 5, 6, 7, 8]);
    assert_eq!(write_buffer_field(&mut buffer, 0, 8, AmlValue::Package), Err(Refusal::TypeCannotBeWrittenToBufferField(AmlType::Package)));

    let mut region = [0xff, 0xff];
    assert_eq!(write_field(&mut region, WORD, 0x123), Ok(2));
    assert_eq!((read_field(&region, WORD), region), (Ok(Read { value: 0x123, count: 1 }), [0x23, 0xf1]));
    assert_eq!(write_value(&mut region, WORD, AmlValue::Boolean(false)), Ok(2));
    assert_eq!(write_value_self(&mut region, WORD, OwnBytes::BufferField { offset: 12, length: 4 }), Ok(2));
    assert_eq!(region, [0x0f, 0xf0]);
    assert_eq!(read_field(&region, FieldUnit { flags: FieldFlags(6), ..WORD }), Err(Refusal::InvalidFieldFlags));
    store(&mut region, 0, 2, 0x1234);
    assert_eq!((load(&region, 0, 2), region), (0x1234, [0x34, 0x12]));
}

#[test]
fn operators() {
    let mut out = [0; 32];
    let n = AmlValue::Integer;
    assert_eq!(def_add(n(u64::MAX), n(2)), Ok(1));
    assert_eq!(def_and(n(12), AmlValue::Buffer(&[9])), Ok(8));
    assert_eq!(def_shift_left(n(1), n(63)), Ok(1 << 63));
    assert_eq!(def_shift_right(n(1), n(64)), Err(Refusal::InvalidShiftRight));
    assert_eq!((def_increment(n(1)), def_decrement(n(0))), (Ok(2), Ok(u64::MAX)));
    assert_eq!(compare(AmlValue::String(b"ab"), AmlValue::String(b"abc")), Ok(Ordering::Less));
    assert_eq!(compare(n(3), n(3)), Ok(Ordering::Equal));
    assert_eq!(compare(AmlValue::Buffer(&[2]), AmlValue::Buffer(&[1, 1])), Ok(Ordering::Greater));
    assert_eq!(def_mid(AmlValue::Buffer(&[1, 2, 3]), n(1), n(u64::MAX)), Ok(AmlValue::Buffer(&[2, 3])));
    assert_eq!(def_mid(AmlValue::String(b"abc"), n(3), n(1)), Ok(AmlValue::String(b"")));
    assert_eq!(def_mid(n(1), n(1), n(1)), Err(Refusal::TypeCannotBeSliced(AmlType::Integer)));
    assert_eq!(def_concat(AmlValue::Device, AmlValue::String(b"!"), &mut out), Ok(AmlValue::String(b"[Device]!")));
    assert_eq!(def_concat_res(AmlValue::Buffer(&[1, 2, 0x79, 0]), AmlValue::Buffer(&[]), &mut out), Ok(&[1, 2, 0x79, 0x84][..]));
    assert_eq!(def_buffer(n(3), &[5], &mut out), Ok(&[5, 0, 0][..]));
}

#[test]
fn tables() {
    let mut region = [1, 2, 3];
    let field = FieldUnit { flags: FieldFlags(1), offset: 4, length: 16, ..WORD };
    let mut table = Table::new(3).unwrap();
    let fresh = table;
    assert_eq!(Table::new(65537), Err(Refusal::TooManyBytes));
    assert_eq!(table.start(&region, 4, FieldOp::Read(field)), Err(Refusal::NoSuchTask));
    assert_eq!(table.start(&region, 3, FieldOp::Read(field)), Ok(3));
    assert_eq!([(); 3].map(|_| table.step(&mut region, 3)), [Ok(Step::More), Ok(Step::More), Ok(Step::Value(0x3020))]);
    assert_eq!((table, table.is_malformed()), (fresh, false));
    table.holder = 5;
    let damaged = table;
    assert_eq!(table.step(&mut region, 0), Err(Refusal::MalformedTable));
    assert_eq!((table, table.is_malformed()), (damaged, true));
}
