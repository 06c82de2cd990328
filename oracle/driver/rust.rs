//! The crate's text asked a job: values made of the operands, one call, and what it gave in the columns of an answer.
use aml::value::{AmlType, Args, FieldFlags, MethodCode, MethodFlags, RegionSpace, StatusObject};
use aml::{AmlContext, AmlError, AmlHandle, AmlName, AmlValue, DebugVerbosity, Handler};
use jobs::domain;
use jobs::job::*;
use spinning_top::Spinlock;
use std::cell::Cell;
use std::cmp::Ordering;
use std::panic::{catch_unwind, AssertUnwindSafe};
use std::sync::{Arc, Mutex, MutexGuard, PoisonError};

thread_local! {
    /// The text is asked: a panic now is an answer, and nothing is written of it.
    static ASKED: Cell<bool> = const { Cell::new(false) };
}

pub fn is_asked() -> bool {
    ASKED.get()
}

/// What the Rust says to a job.
pub enum Reply {
    Answer(Told),
    /// A panic, or an error that has no number: in words, and the first operand's bytes where the call left others than it found.
    Other(String),
    /// The job cannot be put to it.
    Unasked,
}

/// The memory behind the three regions, and the accesses made.
#[derive(Default)]
struct Memory {
    regions: [Vec<u8>; 3],
    accesses: u64,
}

const MEMORY_STEP: u32 = 48; // the region of operand k + 1 begins at k times 2 to this
const PORT_STEP: u32 = 14;

#[derive(Clone, Default)]
struct Host(Arc<Mutex<Memory>>);

impl Host {
    fn memory(&self) -> MutexGuard<'_, Memory> {
        self.0.lock().unwrap_or_else(PoisonError::into_inner)
    }

    fn load(&self, address: usize, step: u32, bytes: usize) -> u64 {
        let mut memory = self.memory();
        memory.accesses += 1;
        let at = address & ((1 << step) - 1);
        let region = memory.regions.get(address >> step).map_or(&[][..], |region| &region[..]);
        assert!(at + bytes <= region.len(), "a load outside the region");
        region[at..at + bytes].iter().rev().fold(0, |x, byte| x << 8 | *byte as u64)
    }

    fn store(&self, address: usize, step: u32, bytes: usize, value: u64) {
        let mut memory = self.memory();
        memory.accesses += 1;
        let at = address & ((1 << step) - 1);
        let region = memory.regions.get_mut(address >> step).map_or(&mut [][..], |region| &mut region[..]);
        assert!(at + bytes <= region.len(), "a store outside the region");
        region[at..at + bytes].copy_from_slice(&value.to_le_bytes()[..bytes]);
    }
}

macro_rules! memory_access {
    ($($load:ident $store:ident $t:ty)*) => { $(
        fn $load(&self, address: usize) -> $t {
            self.load(address, MEMORY_STEP, size_of::<$t>()) as $t
        }
        fn $store(&mut self, address: usize, value: $t) {
            self.store(address, MEMORY_STEP, size_of::<$t>(), value as u64)
        }
    )* };
}

macro_rules! port_access {
    ($($load:ident $store:ident $pci_load:ident $pci_store:ident $t:ty)*) => { $(
        fn $load(&self, port: u16) -> $t {
            self.load(port as usize, PORT_STEP, size_of::<$t>()) as $t
        }
        fn $store(&self, port: u16, value: $t) {
            self.store(port as usize, PORT_STEP, size_of::<$t>(), value as u64)
        }
        fn $pci_load(&self, _segment: u16, _bus: u8, _device: u8, _function: u8, offset: u16) -> $t {
            self.load(offset as usize, PORT_STEP, size_of::<$t>()) as $t
        }
        fn $pci_store(&self, _segment: u16, _bus: u8, _device: u8, _function: u8, offset: u16, value: $t) {
            self.store(offset as usize, PORT_STEP, size_of::<$t>(), value as u64)
        }
    )* };
}

impl Handler for Host {
    memory_access!(read_u8 write_u8 u8  read_u16 write_u16 u16  read_u32 write_u32 u32  read_u64 write_u64 u64);
    port_access!(read_io_u8 write_io_u8 read_pci_u8 write_pci_u8 u8
                 read_io_u16 write_io_u16 read_pci_u16 write_pci_u16 u16
                 read_io_u32 write_io_u32 read_pci_u32 write_pci_u32 u32);
}

/// The bytes of an operand as the Rust holds them.
enum Bytes {
    Fixed(Vec<u8>),
    Shared(Arc<Spinlock<Vec<u8>>>),
    Region(usize),
}

/// An operator's answer: done, or refused.
type Given = Result<Gave, AmlError>;

enum Gave {
    Nothing,
    Integer(u64),
    Value(AmlValue),
    Itself,
    Bool(bool),
    Status(StatusObject),
    Order(Ordering),
    Length(u64),
}

pub struct Rust {
    context: AmlContext,
    host: Host,
    regions: [AmlHandle; 3],
    /// The method that runs an operator: its arguments are the operands.
    method: AmlHandle,
    /// The operands' bytes of the job under way.
    held: Vec<Bytes>,
    /// Tell the number of accesses always, not only where it is the same.
    pub count_all: bool,
}

const METHOD: &str = "\\RUN_";

fn name(text: &str) -> AmlName {
    AmlName::from_str(text).unwrap()
}

impl Rust {
    pub fn new() -> Rust {
        let host = Host::default();
        let mut context = AmlContext::new(Box::new(host.clone()), DebugVerbosity::None);
        let regions = ["\\REG1", "\\REG2", "\\REG3"].map(|at| context.namespace.add_value(name(at), AmlValue::Device).unwrap());
        let method = context.namespace.add_value(name(METHOD), AmlValue::Device).unwrap();
        // the device behind a region in PciConfig
        context.namespace.add_value(name("_ADR"), AmlValue::Integer(0)).unwrap();
        Rust { context, host, regions, method, held: Vec::new(), count_all: false }
    }

    /// A panic becomes an answer; what was under way is thrown away then.
    pub fn ask(&mut self, job: &Job) -> Reply {
        if !askable(job) {
            return Reply::Unasked;
        }
        match asked(|| self.answer(job)) {
            Ok(reply) => reply,
            Err(said) => {
                let after = self.held.first().map_or(Vec::new(), |bytes| self.after(bytes));
                let changed = if after == job.operands[0].bytes() { String::new() } else { format!(", bytes left: {}", hex(&after)) };
                *self = Rust { count_all: self.count_all, ..Rust::new() };
                Reply::Other(said + &changed)
            }
        }
    }

    fn answer(&mut self, job: &Job) -> Reply {
        let mut values = Vec::new();
        self.held.clear();
        for which in 0..3 {
            let (value, bytes) = self.value(which, &job.operands[which]);
            values.push(value);
            self.held.push(bytes);
        }
        if job.op == WRITE_VALUE_SELF {
            values[1] = self.same_region(&job.operands[1], &job.operands[0]);
        }
        if job.op == BUILD && values[0].as_integer(&self.context).is_ok_and(|size| size > 1 << 24) {
            return Reply::Other(TOO_MANY.to_string()); // and more than memory holds: it would end the program
        }
        self.host.memory().accesses = 0;
        let given = self.call(job, &mut values);
        let accesses = self.host.memory().accesses;
        let mut told = Told::default();
        if job.op == FLAGS {
            tell_flags(FieldFlags::new(job.operands[0].flags), &mut told);
        } else if let Some(reply) = tell_given(job, given, &mut told) {
            return reply;
        }
        if (counted(job) || self.count_all && job.op == UNIT) && told.get("status") == 0 {
            told.number("count", accesses);
        }
        self.tell_bytes(job, &mut told);
        told.0.sort();
        Reply::Answer(told)
    }

    fn after(&self, bytes: &Bytes) -> Vec<u8> {
        match bytes {
            Bytes::Fixed(bytes) => bytes.clone(),
            Bytes::Shared(bytes) => bytes.lock().clone(),
            Bytes::Region(which) => self.host.memory().regions[*which].clone(),
        }
    }

    /// The operands' bytes after the call.
    fn tell_bytes(&self, job: &Job, told: &mut Told) {
        let first = self.after(&self.held[0]);
        told.bytes("1", &first, job.show);
        if job.op == UNIT {
            told.bytes("2", &first, job.show); // the same region, step by step
        } else if operands_of(job.op) > 1 && job.op != WRITE_VALUE_SELF {
            told.bytes("2", &self.after(&self.held[1]), job.show);
        }
    }

    fn value(&mut self, which: usize, o: &Operand) -> (AmlValue, Bytes) {
        let bytes = o.bytes();
        match o.kind {
            STRING => (AmlValue::String(String::from_utf8(bytes.clone()).unwrap()), Bytes::Fixed(bytes)),
            BUFFER => {
                let shared = Arc::new(Spinlock::new(bytes));
                (AmlValue::Buffer(shared.clone()), Bytes::Shared(shared))
            }
            BUFFER_FIELD => {
                let shared = Arc::new(Spinlock::new(bytes));
                (AmlValue::BufferField { buffer_data: shared.clone(), offset: o.offset, length: o.length }, Bytes::Shared(shared))
            }
            FIELD_UNIT => {
                self.set_region(which, o.space, bytes);
                (self.field(which, o), Bytes::Region(which))
            }
            _ => (plain(o), Bytes::Fixed(bytes)),
        }
    }

    fn set_region(&mut self, which: usize, space: u8, bytes: Vec<u8>) {
        let step = if space == 0 { MEMORY_STEP } else { PORT_STEP };
        let region = AmlValue::OpRegion {
            region: space_of(space),
            offset: (which as u64) << step,
            length: bytes.len() as u64,
            parent_device: Some(name("\\PCI0")),
        };
        *self.context.namespace.get_mut(self.regions[which]).unwrap() = region;
        self.host.memory().regions[which] = bytes;
    }

    fn field(&self, which: usize, o: &Operand) -> AmlValue {
        AmlValue::Field { region: self.regions[which], flags: FieldFlags::new(o.flags), offset: o.offset, length: o.length }
    }

    /// A value whose bytes are the region of the field that is written: a field of it, or a copy of its bytes.
    fn same_region(&mut self, o: &Operand, region: &Operand) -> AmlValue {
        if o.kind == FIELD_UNIT {
            return self.field(0, o);
        }
        self.value(1, &Operand { n: region.n, seed: region.seed, head: region.head, ..*o }).0
    }

    fn call(&mut self, job: &Job, values: &mut [AmlValue]) -> Given {
        match job.op {
            UNIT | WRITE | SELF | WRITE_VALUE | WRITE_VALUE_SELF if job.op != UNIT || job.write == 1 => {
                self.write(job, values).map(|()| Gave::Nothing)
            }
            UNIT => values[0].read_field(&self.context).map(Gave::Value),
            READ => values[0].read_buffer_field(&self.context).map(Gave::Value),
            FLAGS => Ok(Gave::Nothing),
            AS_INTEGER => values[0].as_integer(&self.context).map(Gave::Integer),
            AS_BUFFER => values[0].as_buffer(&self.context).map(|bytes| Gave::Value(AmlValue::Buffer(bytes))),
            BUFFER_LENGTH => values[0].as_buffer(&self.context).map(|bytes| Gave::Length(bytes.lock().len() as u64)),
            AS_STRING => values[0].as_string(&self.context).map(|text| Gave::Value(AmlValue::String(text))),
            STRING_LENGTH => values[0].as_string(&self.context).map(|text| Gave::Length(text.len() as u64)),
            AS_TYPE => self.named_type(&values[0], type_of_number(job.made)),
            AS_STATUS => values[0].as_status().map(Gave::Status),
            DEFAULT_STATUS => Ok(Gave::Status(StatusObject::default())),
            TYPE => self.type_number(values.to_vec()),
            AS_BOOL => self.truth(values.to_vec()),
            COMPARE => self.order(values.to_vec()),
            BUILD => self.operate(&buffer_code(&job.operands[1].bytes()), values.to_vec()).map(Gave::Value),
            op => self.operate(operator_code(op), values.to_vec()).map(Gave::Value),
        }
    }

    /// The second value into the field that is the first.
    fn write(&mut self, job: &Job, values: &mut [AmlValue]) -> Result<(), AmlError> {
        let value = match (job.op, &values[0]) {
            (UNIT, _) => AmlValue::Integer(job.operands[1].value),
            (SELF, AmlValue::BufferField { buffer_data, .. }) => AmlValue::Buffer(buffer_data.clone()),
            _ => values[1].clone(),
        };
        match job.op {
            WRITE | SELF => values[0].write_buffer_field(value, &mut self.context),
            _ => values[0].write_field(value, &mut self.context),
        }
    }

    /// type_of, and the same by ObjectType.
    fn type_number(&mut self, values: Vec<AmlValue>) -> Given {
        let number = number_of(values[0].type_of()) as u64;
        let told = self.operate(&[0x8e, 0x68], values)?;
        assert!(matches!(told, AmlValue::Integer(told) if told == number), "ObjectType says another type");
        Ok(Gave::Length(number))
    }

    /// Runs `Return (code)` as a method over these arguments.
    fn operate(&mut self, code: &[u8], arguments: Vec<AmlValue>) -> Result<AmlValue, AmlError> {
        let mut all = vec![0xa4];
        all.extend_from_slice(code);
        let method = AmlValue::Method { flags: MethodFlags::new(3, false, 0), code: MethodCode::Aml(all) };
        *self.context.namespace.get_mut(self.method)? = method;
        self.context.invoke_method(&name(METHOD), Args::from_list(arguments)?)
    }

    /// as_bool, and the same by LAnd and LOr of the value with itself.
    fn truth(&mut self, values: Vec<AmlValue>) -> Given {
        let plain = values[0].as_bool();
        for code in [0x90, 0x91] {
            let other = self.operate(&[code, 0x68, 0x68], values.clone()).map(|value| matches!(value, AmlValue::Boolean(true)));
            assert!(other == plain, "LAnd or LOr says another truth");
        }
        plain.map(Gave::Bool)
    }

    /// cmp, and the same by the six operators over it.
    fn order(&mut self, values: Vec<AmlValue>) -> Given {
        let plain = values[0].cmp(values[1].clone(), &mut self.context);
        let operators: [(&[u8], fn(Ordering) -> bool); 6] = [
            (&[0x93, 0x68, 0x69], |order| order == Ordering::Equal),
            (&[0x94, 0x68, 0x69], |order| order == Ordering::Greater),
            (&[0x95, 0x68, 0x69], |order| order == Ordering::Less),
            (&[0x92, 0x93, 0x68, 0x69], |order| order != Ordering::Equal),
            (&[0x92, 0x94, 0x68, 0x69], |order| order != Ordering::Greater),
            (&[0x92, 0x95, 0x68, 0x69], |order| order != Ordering::Less),
        ];
        for (code, holds) in operators {
            let other = self.operate(code, values.clone()).map(|value| matches!(value, AmlValue::Boolean(true)));
            assert!(other == plain.clone().map(holds), "a comparing operator says another order");
        }
        plain.map(Gave::Order)
    }

    /// An operator over one buffer, given twice, in words.
    pub fn twice(&mut self, op: u8) -> String {
        let shared = AmlValue::Buffer(Arc::new(Spinlock::new(vec![1, 2, 0x79, 0])));
        let values = vec![shared.clone(), shared];
        let answer = asked(|| match op {
            COMPARE => self.order(values).is_ok(),
            op => self.operate(operator_code(op), values).is_ok(),
        });
        answer.map_or_else(|said| said, |well| if well { "accepted".to_string() } else { "refused".to_string() })
    }

    fn named_type(&mut self, value: &AmlValue, wanted: AmlType) -> Given {
        let given = value.as_type(wanted, &self.context)?;
        Ok(if value.type_of() == wanted && same(value, &given) { Gave::Itself } else { Gave::Value(given) })
    }
}

/// What the text gives, or the first line of its panic.
fn asked<R>(ask: impl FnOnce() -> R) -> Result<R, String> {
    ASKED.set(true);
    let given = catch_unwind(AssertUnwindSafe(ask));
    ASKED.set(false);
    given.map_err(|said| {
        let said = said.downcast::<String>().map(|text| *text).or_else(|said| said.downcast::<&str>().map(|text| text.to_string()));
        format!("panic: {}", said.unwrap_or_default().lines().next().unwrap_or_default())
    })
}

fn plain(o: &Operand) -> AmlValue {
    match o.kind {
        BOOLEAN => AmlValue::Boolean(o.value != 0),
        INTEGER => AmlValue::Integer(o.value),
        6 => AmlValue::OpRegion { region: RegionSpace::SystemMemory, offset: 0, length: 0, parent_device: None },
        7 => AmlValue::Device,
        8 => AmlValue::Method { flags: MethodFlags::new(0, false, 0), code: MethodCode::Aml(Vec::new()) },
        9 => AmlValue::Processor { id: 0, pblk_address: 0, pblk_len: 0 },
        10 => AmlValue::Mutex { sync_level: 0 },
        11 => AmlValue::Package(Vec::new()),
        12 => AmlValue::PowerResource { system_level: 0, resource_order: 0 },
        13 => AmlValue::ThermalZone,
        kind => panic!("kind {kind}"),
    }
}

/// The same value, and where it has bytes the same bytes, not a copy.
fn same(a: &AmlValue, b: &AmlValue) -> bool {
    match (a, b) {
        (AmlValue::Boolean(a), AmlValue::Boolean(b)) => a == b,
        (AmlValue::Integer(a), AmlValue::Integer(b)) => a == b,
        (AmlValue::String(a), AmlValue::String(b)) => a == b,
        (AmlValue::Buffer(a), AmlValue::Buffer(b)) => Arc::ptr_eq(a, b),
        (AmlValue::BufferField { buffer_data: a, offset: o, length: l }, AmlValue::BufferField { buffer_data: b, offset: p, length: m }) => {
            Arc::ptr_eq(a, b) && o == p && l == m
        }
        (AmlValue::Field { region: a, flags: f, offset: o, length: l }, AmlValue::Field { region: b, flags: g, offset: p, length: m }) => {
            a == b && f == g && o == p && l == m
        }
        _ => std::mem::discriminant(a) == std::mem::discriminant(b),
    }
}

/// Can the job be put to it at all: a String is Rust's.
fn askable(job: &Job) -> bool {
    job.operands.iter().all(|o| o.kind != STRING || String::from_utf8(o.bytes()).is_ok())
}

const TOO_MANY: &str = "bytes: more than the output holds";

/// The access counts agree only where the access is as wide as the field, and nothing is loaded to be preserved.
pub fn counted(job: &Job) -> bool {
    let field = &job.operands[0];
    let preserve = field.flags >> 5 & 3 == 0;
    match job.op {
        UNIT if job.write == 0 => domain::width(field.flags) == Some(field.length),
        UNIT => domain::width(field.flags) == Some(field.length) && !preserve,
        WRITE_VALUE | WRITE_VALUE_SELF => job.operands[1].kind != FIELD_UNIT && domain::width(field.flags) == Some(field.length) && !preserve,
        _ => false,
    }
}

fn operator_code(op: u8) -> &'static [u8] {
    match op {
        ADD => &[0x72, 0x68, 0x69, 0],
        AND => &[0x7b, 0x68, 0x69, 0],
        INCREMENT => &[0x75, 0x68],
        DECREMENT => &[0x76, 0x68],
        SHIFT_LEFT => &[0x79, 0x68, 0x69, 0],
        SHIFT_RIGHT => &[0x7a, 0x68, 0x69, 0],
        MID => &[0x9e, 0x68, 0x69, 0x6a, 0],
        CONCAT => &[0x73, 0x68, 0x69, 0],
        CONCAT_RES => &[0x84, 0x68, 0x69, 0],
        TO_INTEGER => &[0x99, 0x68, 0],
        op => panic!("op {op}"),
    }
}

/// DefBuffer of the first argument's size over these bytes: four bytes of package length, the size, the bytes.
fn buffer_code(initial: &[u8]) -> Vec<u8> {
    let length = initial.len() + 5;
    let mut code = vec![0x11, 0xc0 | (length & 15) as u8, (length >> 4) as u8, (length >> 12) as u8, (length >> 20) as u8, 0x68];
    code.extend_from_slice(initial);
    code
}

fn space_of(number: u8) -> RegionSpace {
    use RegionSpace::*;
    match number {
        0 => SystemMemory,
        1 => SystemIo,
        2 => PciConfig,
        3 => EmbeddedControl,
        4 => SMBus,
        5 => SystemCmos,
        6 => PciBarTarget,
        7 => IPMI,
        8 => GeneralPurposeIo,
        9 => GenericSerialBus,
        other => OemDefined(other),
    }
}

fn number_of(t: AmlType) -> u8 {
    match t {
        AmlType::Integer => 1,
        AmlType::String => 2,
        AmlType::Buffer => 3,
        AmlType::Package => 4,
        AmlType::FieldUnit => 5,
        AmlType::Device => 6,
        AmlType::Method => 8,
        AmlType::Mutex => 9,
        AmlType::OpRegion => 10,
        AmlType::PowerResource => 11,
        AmlType::Processor => 12,
        AmlType::ThermalZone => 13,
        AmlType::BufferField => 14,
        other => panic!("no value has the type {other:?}"),
    }
}

fn type_of_number(number: u64) -> AmlType {
    match number {
        1 => AmlType::Integer,
        2 => AmlType::String,
        3 => AmlType::Buffer,
        4 => AmlType::Package,
        5 => AmlType::FieldUnit,
        6 => AmlType::Device,
        8 => AmlType::Method,
        9 => AmlType::Mutex,
        10 => AmlType::OpRegion,
        11 => AmlType::PowerResource,
        12 => AmlType::Processor,
        13 => AmlType::ThermalZone,
        14 => AmlType::BufferField,
        other => panic!("no value has the type {other}"),
    }
}

/// Document 01's number of an error, and the types that it carries.
fn refusal(error: &AmlError) -> Option<(u8, u8, u8)> {
    Some(match error {
        AmlError::IncompatibleValueConversion { current, target } => (1, number_of(*current), number_of(*target)),
        AmlError::BufferFieldIndexesOutOfBounds => (2, 0, 0),
        AmlError::TypeCannotBeWrittenToBufferField(met) => (3, number_of(*met), 0),
        AmlError::TypeCannotBeCompared(met) => (4, number_of(*met), 0),
        AmlError::TypeCannotBeSliced(met) => (5, number_of(*met), 0),
        AmlError::ResourceDescriptorTooShort => (6, 0, 0),
        AmlError::InvalidShiftLeft => (7, 0, 0),
        AmlError::InvalidShiftRight => (8, 0, 0),
        AmlError::InvalidFieldFlags => (9, 0, 0),
        AmlError::InvalidStatusObject => (10, 0, 0),
        AmlError::MalformedBuffer => (11, 0, 0),
        _ => return None,
    })
}

fn tell_result(told: &mut Told, result: u64, value: u64) {
    told.number("result", result);
    told.number("value", value);
}

/// Status, types, result, value, count and the output; a reply where there is nothing to compare.
fn tell_given(job: &Job, given: Given, told: &mut Told) -> Option<Reply> {
    let (status, present, wanted) = match &given {
        Ok(_) => (0, 0, 0),
        Err(error) => match refusal(error) {
            Some(known) => known,
            None => return Some(Reply::Other(format!("error: {error:?}"))),
        },
    };
    told.number("status", status as u64);
    told.number("present", present as u64);
    told.number("wanted", wanted as u64);
    let bytes = match given {
        Err(_) => {
            tell_result(told, 0, 0);
            None
        }
        Ok(gave) => tell_gave(job, gave, told),
    };
    if job.op == UNIT {
        tell_steps(job, status, told);
    }
    tell_output(job, bytes, told)
}

/// What was given; bytes are handed back.
fn tell_gave(job: &Job, gave: Gave, told: &mut Told) -> Option<Vec<u8>> {
    match gave {
        Gave::Nothing => tell_result(told, 0, 0),
        Gave::Integer(x) | Gave::Value(AmlValue::Integer(x)) => tell_result(told, 1, x),
        Gave::Bool(b) => tell_result(told, 6, b as u64),
        Gave::Status(status) => tell_result(told, 7, status_bits(&status)),
        Gave::Order(order) => tell_result(told, 9, (order as i8 + 1) as u64),
        Gave::Itself => tell_result(told, 8, 0),
        Gave::Length(length) if job.op == TYPE => told.number("value", length),
        Gave::Length(length) => told.number("count", length),
        Gave::Value(AmlValue::Buffer(bytes)) => return Some(tell_bytes_given(job, BUFFER, bytes.lock().clone(), told)),
        Gave::Value(AmlValue::String(text)) => return Some(tell_bytes_given(job, STRING, text.into_bytes(), told)),
        Gave::Value(_) => panic!("a value of another kind"),
    }
    None
}

fn tell_bytes_given(job: &Job, kind: u8, bytes: Vec<u8>, told: &mut Told) -> Vec<u8> {
    told.number("count", bytes.len() as u64);
    if job.op == MID {
        assert!(kind == job.operands[0].kind, "Mid gives another kind");
    }
    let result = match kind {
        _ if job.op == MID => 10,
        STRING => 5,
        _ => 2,
    };
    tell_result(told, result, 0);
    bytes
}

/// The output after the call, a result's bytes at its front; Mid's part as it is.
fn tell_output(job: &Job, bytes: Option<Vec<u8>>, told: &mut Told) -> Option<Reply> {
    let bytes = bytes.unwrap_or_default();
    if job.op == MID {
        told.bytes("_out", &bytes, 0);
        return None;
    }
    let mut out = job.output();
    if bytes.len() > out.len() {
        return Some(Reply::Other(TOO_MANY.to_string()));
    }
    out[..bytes.len()].copy_from_slice(&bytes);
    told.bytes("_out", &out, job.show);
    None
}

/// The same call step by step, and its check alone, must say the same.
fn tell_steps(job: &Job, status: u8, told: &mut Told) {
    told.number("step_status", status as u64);
    told.number("check_status", status as u64);
    told.number("count_status", status as u64);
    told.number("held", if job.write == 0 { told.get("value") } else { 0 });
}

fn status_bits(s: &StatusObject) -> u64 {
    let bits = [s.present, s.enabled, s.show_in_ui, s.functional, s.battery_present];
    bits.iter().rev().fold(0, |x, bit| x << 1 | *bit as u64)
}

/// The parts of the flags, each by itself.
fn tell_flags(flags: FieldFlags, told: &mut Told) {
    match flags.access_type() {
        Ok(access) => {
            told.number("status", 0);
            told.number("value", access as u64);
        }
        Err(error) => told.number("status", refusal(&error).unwrap().0 as u64),
    }
    match flags.field_update_rule() {
        Ok(rule) => {
            told.number("step_status", 0);
            told.number("held", rule as u64);
        }
        Err(error) => told.number("step_status", refusal(&error).unwrap().0 as u64),
    }
    told.number("steps", flags.lock_rule() as u64);
}
