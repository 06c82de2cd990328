//! The text of aml 0.16.4 as a side of the bench: a call is made ready outside the count, then made.
//! A value that a call of the text takes for good is cloned inside the count; an operator's operands are read from its own code, as the text does.
use aml::resource::{operate, set_arguments};
use aml::value::{Args, FieldFlags, RegionSpace};
use aml::{AmlContext, AmlHandle, AmlName, AmlValue, DebugVerbosity, Handler};
use spinning_top::Spinlock;
use std::ffi::{c_char, CStr};
use std::hint::black_box;
use std::sync::{Arc, Mutex};

#[derive(Clone, Copy)]
#[repr(C)]
pub struct HostValue {
    kind: u8,
    _space: u8,
    flags: u8,
    number: u64,
    offset: u64,
    length: u64,
}

const INTEGER: u8 = 1;
const STRING: u8 = 2;
const BUFFER: u8 = 3;
const FIELD_UNIT: u8 = 5;
const BUFFER_FIELD: u8 = 14;
const BOOLEAN: u8 = 17;

/// The memory behind a region.
#[derive(Clone, Default)]
struct Host(Arc<Mutex<Vec<u8>>>);

macro_rules! access {
    ($($load:ident $store:ident $t:ty)*) => { $(
        fn $load(&self, address: usize) -> $t {
            let memory = self.0.lock().unwrap();
            <$t>::from_le_bytes(memory[address..address + size_of::<$t>()].try_into().unwrap())
        }
        fn $store(&mut self, address: usize, value: $t) {
            self.0.lock().unwrap()[address..address + size_of::<$t>()].copy_from_slice(&value.to_le_bytes())
        }
    )* };
}

macro_rules! unused {
    ($($load:ident $store:ident $pci_load:ident $pci_store:ident $t:ty)*) => { $(
        fn $load(&self, _: u16) -> $t { 0 }
        fn $store(&self, _: u16, _: $t) {}
        fn $pci_load(&self, _: u16, _: u8, _: u8, _: u8, _: u16) -> $t { 0 }
        fn $pci_store(&self, _: u16, _: u8, _: u8, _: u8, _: u16, _: $t) {}
    )* };
}

impl Handler for Host {
    access!(read_u8 write_u8 u8  read_u16 write_u16 u16  read_u32 write_u32 u32  read_u64 write_u64 u64);
    unused!(read_io_u8 write_io_u8 read_pci_u8 write_pci_u8 u8
            read_io_u16 write_io_u16 read_pci_u16 write_pci_u16 u16
            read_io_u32 write_io_u32 read_pci_u32 write_pci_u32 u32);
}

struct Ready {
    context: AmlContext,
    left: AmlValue,
    right: AmlValue,
    code: &'static [u8],
}

// One thread uses them. They are plain, so that a call costs next to nothing beside the text.
static mut READY: Option<Ready> = None;
static mut RUN: fn(&mut Ready) = |_| ();

/// Document 01's domain, of one operand.
fn inside(v: HostValue, size: usize) -> bool {
    let width = [8, 8, 16, 32, 64, 8];
    match v.kind {
        BUFFER_FIELD => (v.length <= 32 || v.length > 64 && v.offset % 8 == 0) && v.offset + v.length <= 8 * size as u64,
        FIELD_UNIT => v.offset == 0 && [8, 16, 32, 64].contains(&v.length) && width[v.flags as usize & 15] <= v.length,
        _ => true,
    }
}

fn value(v: HostValue, bytes: &[u8], region: AmlHandle) -> AmlValue {
    let shared = || Arc::new(Spinlock::new(bytes.to_vec()));
    match v.kind {
        INTEGER => AmlValue::Integer(v.number),
        BOOLEAN => AmlValue::Boolean(v.number != 0),
        STRING => AmlValue::String(bytes.iter().map(|b| char::from(b & 127)).collect()),
        BUFFER => AmlValue::Buffer(shared()),
        BUFFER_FIELD => AmlValue::BufferField { buffer_data: shared(), offset: v.offset, length: v.length },
        FIELD_UNIT => AmlValue::Field { region, flags: FieldFlags::new(v.flags), offset: v.offset, length: v.length },
        _ => AmlValue::Device,
    }
}

/// What makes the call, and an operator's code over the arguments 0, 1, 2.
fn call(name: &str) -> Option<(fn(&mut Ready), &'static [u8])> {
    let operator: fn(&mut Ready) = |ready| drop(black_box(operate(&mut ready.context, ready.code)));
    Some(match name {
        "read buffer field" => (|ready| drop(black_box(ready.left.read_buffer_field(&ready.context))), &[]),
        "write integer" | "write bytes" | "write buffer field" => {
            (|ready| drop(black_box(ready.left.write_buffer_field(ready.right.clone(), &mut ready.context))), &[])
        }
        "read field unit" => (|ready| drop(black_box(ready.left.read_field(&ready.context))), &[]),
        "write field unit" | "write value" => (|ready| drop(black_box(ready.left.write_field(ready.right.clone(), &mut ready.context))), &[]),
        "type of" => (|ready| _ = black_box(ready.left.type_of()), &[]),
        "as integer" => (|ready| drop(black_box(ready.left.as_integer(&ready.context))), &[]),
        "as bool" => (|ready| drop(black_box(ready.left.as_bool())), &[]),
        "as buffer" => (|ready| drop(black_box(ready.left.as_buffer(&ready.context))), &[]),
        "as string" => (|ready| drop(black_box(ready.left.as_string(&ready.context))), &[]),
        "as status" => (|ready| drop(black_box(ready.left.as_status())), &[]),
        "compare" => (|ready| drop(black_box(ready.left.cmp(ready.right.clone(), &mut ready.context))), &[]),
        "ToInteger" => (operator, &[0x99, 0x68, 0]),
        "Add" => (operator, &[0x72, 0x68, 0x69, 0]),
        "And" => (operator, &[0x7b, 0x68, 0x69, 0]),
        "ShiftLeft" => (operator, &[0x79, 0x68, 0x69, 0]),
        "ShiftRight" => (operator, &[0x7a, 0x68, 0x69, 0]),
        "Mid" => (operator, &[0x9e, 0x68, 0x69, 0x6a, 0]),
        "Concat" => (operator, &[0x73, 0x68, 0x69, 0]),
        "ConcatRes" => (operator, &[0x84, 0x68, 0x69, 0]),
        _ => return None,
    })
}

/// Makes a call ready. False where the text has no such call, or the input lies outside the domain.
#[no_mangle]
pub unsafe extern "C" fn crate_ready(
    name: *const c_char, left: HostValue, left_bytes: *const u8, left_size: usize, right: HostValue, right_bytes: *const u8, right_size: usize,
    third: HostValue,
) -> bool {
    let name = unsafe { CStr::from_ptr(name) }.to_str().unwrap();
    let (left_bytes, right_bytes) = unsafe { (std::slice::from_raw_parts(left_bytes, left_size), std::slice::from_raw_parts(right_bytes, right_size)) };
    let Some((run, code)) = call(name) else { return false };
    let boolean = name == "Concat" && left.kind == BOOLEAN;
    if boolean || !inside(left, left_size) || !inside(right, right_size) || !inside(third, right_size) {
        return false;
    }
    let memory = if left.kind == FIELD_UNIT { left_bytes } else { right_bytes };
    let mut context = AmlContext::new(Box::new(Host(Arc::new(Mutex::new(memory.to_vec())))), DebugVerbosity::None);
    let space = AmlValue::OpRegion { region: RegionSpace::SystemMemory, offset: 0, length: memory.len() as u64, parent_device: None };
    let region = context.namespace.add_value(AmlName::from_str("\\REG1").unwrap(), space).unwrap();
    let [left, right, third] = [(left, left_bytes), (right, right_bytes), (third, right_bytes)].map(|(v, bytes)| value(v, bytes, region));
    set_arguments(&mut context, Args::from_list(vec![left.clone(), right.clone(), third]).unwrap());
    unsafe {
        READY = Some(Ready { context, left, right, code });
        RUN = run;
    }
    true
}

#[no_mangle]
pub unsafe extern "C" fn crate_call() {
    let ready = &raw mut READY;
    if let Some(ready) = unsafe { &mut *ready } {
        unsafe { RUN(ready) }
    }
}
