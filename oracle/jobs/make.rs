//! The jobs: every short input of each function, and chance around every limit.
use crate::job::*;

/// Splitmix64.
pub struct Chance(pub u64);

impl Chance {
    pub fn word(&mut self) -> u64 {
        self.0 = self.0.wrapping_add(0x9e3779b97f4a7c15);
        let mut x = self.0;
        x = (x ^ x >> 30).wrapping_mul(0xbf58476d1ce4e5b9);
        x = (x ^ x >> 27).wrapping_mul(0x94d049bb133111eb);
        x ^ x >> 31
    }

    pub fn below(&mut self, n: u64) -> u64 {
        self.word() % n
    }

    fn one_in(&mut self, n: u64) -> bool {
        self.below(n) == 0
    }

    fn pick<T: Copy>(&mut self, from: &[T]) -> T {
        from[self.below(from.len() as u64) as usize]
    }

    /// A number: a power of two and its neighbours, a small one, or any.
    fn number(&mut self) -> u64 {
        match self.below(4) {
            0 => (1u64 << self.below(64)).wrapping_add(self.below(3)).wrapping_sub(1),
            1 => self.below(80),
            2 => self.pick(&[0, 1, 0x1f, 0x20, 63, 64, 65, u64::MAX, u64::MAX - 1, 1 << 63, u32::MAX as u64, 1 << 32]),
            _ => self.word(),
        }
    }

    /// A number of bytes, seldom a great one.
    fn size(&mut self) -> u32 {
        match self.below(600) {
            0 => self.pick(&[65536, 65535, 65534, 32768, 40000]),
            1..30 => self.pick(&[255, 256, 257, 127, 128, 129, 1000, 2047, 2048]),
            30..130 => self.below(70) as u32,
            _ => self.below(20) as u32,
        }
    }

    fn seed(&mut self) -> u32 {
        match self.below(5) {
            0 => 0,
            1 => 1,
            2 => 3,
            _ => (self.word() as u32 >> 1).max(4),
        }
    }

    /// Bytes that are named by a seed, or short ones that are named one by one.
    fn bytes(&mut self, o: &mut Operand) {
        o.n = self.size();
        if o.n <= 32 && self.one_in(2) {
            let value = self.number().to_le_bytes();
            let from: Vec<u8> = match self.below(3) {
                0 => value.to_vec(),
                1 => (0..32).map(|_| self.word() as u8).collect(),
                _ => (0..32).map(|_| self.pick(&[0, 1, 127, 128, 255])).collect(),
            };
            set_head(o, &from[..from.len().min(o.n as usize)]);
        } else {
            o.seed = self.seed();
        }
    }

    fn text(&mut self) -> String {
        match self.below(6) {
            0 => format!("{}", self.number()),
            1 => format!("0x{:x}", self.number()),
            2 => format!("0x{:X}", self.number()),
            3 => format!("{}{}", "0".repeat(self.below(12) as usize), self.number()),
            4 => format!("{}{}", u64::MAX, self.pick(&["", "0", "1"])),
            _ => (0..self.below(9)).map(|_| self.pick(b"0123456789abcdefABCDEFxX+- gG.") as char).collect(),
        }
    }

    fn string(&mut self, o: &mut Operand) {
        if self.one_in(2) {
            let text = self.text();
            set_text(o, &text);
        } else {
            o.n = self.size();
            o.seed = self.pick(&[0, 3, 1 << 31 | self.0 as u32]);
        }
    }

    /// Inside the domain: 0 to 32 bits, or over 64 at a whole byte; in the buffer, at its end, past it.
    fn buffer_field(&mut self, o: &mut Operand) {
        self.bytes(o);
        let whole = o.n as u64 * 8;
        let long = whole > 64 && self.one_in(3);
        o.length = if long { 65 + self.below(whole - 64) } else { self.below(33) };
        if long && self.one_in(4) {
            o.length = whole;
        }
        let room = whole.saturating_sub(o.length);
        o.offset = match self.below(8) {
            0 => room,
            1 => room + 1 + self.below(9),
            2 => self.number() >> 1,
            _ => self.below(room + 1),
        };
        if o.length > 64 {
            o.offset -= o.offset % 8;
        }
    }

    fn flags(&mut self, most: u8) -> u8 {
        let access = if self.one_in(12) { 6 + self.below(10) as u8 } else { self.below(most as u64) as u8 };
        access | (self.below(16) as u8) << 4
    }

    /// Inside the domain: at offset 0, 8, 16, 32 or 64 bits, access not wider.
    fn field_unit(&mut self, o: &mut Operand) {
        self.bytes(o);
        o.length = self.pick(&[8, 16, 32, 64]);
        o.flags = self.flags(6);
        while crate::domain::width(o.flags).is_some_and(|access| access > o.length) {
            o.flags = self.flags(6);
        }
        o.n = o.n.max(o.length as u32 / 8);
        if self.one_in(4) {
            o.n = o.length as u32 / 8;
        }
    }

    pub fn operand(&mut self, kind: u8) -> Operand {
        let mut o = Operand { kind, ..Operand::default() };
        match kind {
            BOOLEAN => o.value = self.below(2),
            INTEGER => o.value = self.number(),
            STRING => self.string(&mut o),
            BUFFER => self.bytes(&mut o),
            BUFFER_FIELD => self.buffer_field(&mut o),
            FIELD_UNIT => self.field_unit(&mut o),
            _ => {}
        }
        if o.kind < STRING || o.kind > FIELD_UNIT {
            if self.one_in(20) {
                o.n = self.below(9) as u32; // bytes beside a value that has none
                o.seed = self.seed();
            }
        }
        o
    }

    fn any_operand(&mut self) -> Operand {
        let kind = match self.below(24) {
            k @ 0..14 => k as u8,
            14..17 => INTEGER,
            17..20 => BUFFER,
            20..22 => BUFFER_FIELD,
            _ => self.pick(&[FIELD_UNIT, STRING]),
        };
        self.operand(kind)
    }

    /// One that most often fits the operator.
    fn operand_of(&mut self, kinds: &[u8]) -> Operand {
        if self.one_in(6) {
            return self.any_operand();
        }
        let kind = self.pick(kinds);
        self.operand(kind)
    }
}

pub fn set_head(o: &mut Operand, bytes: &[u8]) {
    o.seed = 2;
    o.head = [0; 32];
    o.head[..bytes.len()].copy_from_slice(bytes);
}

pub fn set_text(o: &mut Operand, text: &str) {
    let bytes = &text.as_bytes()[..text.len().min(32)];
    o.n = bytes.len() as u32;
    set_head(o, bytes);
}

pub fn buffer(bytes: &[u8]) -> Operand {
    let mut o = Operand { kind: BUFFER, n: bytes.len() as u32, ..Operand::default() };
    set_head(&mut o, bytes);
    o
}

pub fn text(text: &str) -> Operand {
    let mut o = Operand { kind: STRING, ..Operand::default() };
    set_text(&mut o, text);
    o
}

pub fn number(value: u64) -> Operand {
    Operand { kind: INTEGER, value, ..Operand::default() }
}

pub fn truth(value: u64) -> Operand {
    Operand { kind: BOOLEAN, value, ..Operand::default() }
}

pub fn field_of(bytes: &[u8], offset: u64, length: u64) -> Operand {
    Operand { kind: BUFFER_FIELD, offset, length, ..buffer(bytes) }
}

pub fn unit_of(bytes: &[u8], flags: u8, length: u64) -> Operand {
    Operand { kind: FIELD_UNIT, flags, length, ..buffer(bytes) }
}

pub fn job(op: u8, operands: &[Operand]) -> Job {
    let mut made = Job { op, ..Job::default() };
    made.operands[..operands.len()].copy_from_slice(operands);
    with_output(made, 0)
}

/// The most bytes that an operand gives to a result.
fn most_bytes(o: &Operand) -> u32 {
    match o.kind {
        STRING | BUFFER => o.n,
        BUFFER_FIELD => o.n.min(o.length.div_ceil(8) as u32).max(18),
        _ => 18,
    }
}

/// An output that holds the result, with so much room beside it.
pub fn with_output(mut job: Job, room: u32) -> Job {
    let [a, b, _] = job.operands;
    let need = match job.op {
        READ => {
            if a.length > 64 {
                most_bytes(&a)
            } else {
                0
            }
        }
        AS_BUFFER | AS_STRING | AS_TYPE => most_bytes(&a),
        CONCAT => most_bytes(&a) + most_bytes(&b),
        CONCAT_RES => (most_bytes(&a) + most_bytes(&b)).saturating_sub(2),
        BUILD => crate::domain::integer(&a).unwrap_or(0).min(65544) as u32,
        _ => return job,
    };
    job.out = (need + room).min(65544);
    job
}

/// Operands of every kind and of several shapes.
pub fn shapes() -> Vec<Operand> {
    let eight = [1, 2, 3, 4, 5, 6, 7, 0x88];
    let twelve = [9, 8, 7, 6, 5, 4, 3, 2, 1, 0, 255, 128];
    let mut all: Vec<Operand> = [0, 1].map(truth).to_vec();
    all.extend([0, 1, 63, 64, u64::MAX, 1 << 32].map(number));
    all.extend(["", "0", "12", "0x1F", "0x", "abc", "[Device]"].map(text));
    all.extend([&[][..], &[0], &[1], &[1, 2, 0x79, 0], &eight, &twelve].map(buffer));
    let fields: [(&[u8], u64, u64); 10] = [
        (&[], 0, 0),
        (&[], 0, 1),
        (&[0xa5], 0, 8),
        (&[0xa5], 1, 8),
        (&[0xa5, 0x5a], 3, 7),
        (&eight, 4, 32),
        (&twelve, 0, 96),
        (&twelve, 8, 72),
        (&twelve, 8, 88),
        (&twelve, 16, 88),
    ];
    all.extend(fields.map(|(bytes, offset, length)| field_of(bytes, offset, length)));
    all.extend([(0, 16), (0x43, 32), (0x24, 64), (6, 8), (15, 64)].map(|(flags, length)| unit_of(&eight, flags, length)));
    all.extend([unit_of(&[0x5a], 1, 8), unit_of(&twelve, 0x61, 8)]);
    all.extend((6..KINDS).map(|kind| Operand { kind, ..Operand::default() }));
    all
}

const TYPES: [u64; 13] = [1, 2, 3, 4, 5, 6, 8, 9, 10, 11, 12, 13, 14];

type Emit<'a> = &'a mut dyn FnMut(Job);

/// Every flags byte; every kind through every function; each pair of shapes through each function of two operands.
fn every_shape(emit: Emit) {
    for flags in 0..=255 {
        emit(job(FLAGS, &[Operand { flags, ..Operand::default() }]));
    }
    emit(job(DEFAULT_STATUS, &[]));
    let shapes = shapes();
    for a in &shapes {
        for op in [TYPE, AS_INTEGER, AS_BOOL, AS_BUFFER, AS_STRING, AS_STATUS, TO_INTEGER, INCREMENT, DECREMENT, BUFFER_LENGTH, STRING_LENGTH] {
            emit(job(op, &[*a]));
        }
        for made in TYPES {
            emit(Job { made, ..job(AS_TYPE, &[*a]) });
        }
        emit(job(WRITE, &[field_of(&[0x5a; 16], 8, 96), *a]));
        for flags in [0, 1, 2, 3, 4, 5, 6, 15, 0x20, 0x34, 0x43, 0x60, 0x80] {
            emit(job(WRITE_VALUE, &[unit_of(&[0xc3; 9], flags, 64), *a]));
            emit(job(WRITE_VALUE_SELF, &[unit_of(&[0xc3, 0xa5, 1, 2, 3, 4, 5, 6, 7], flags, 64), *a]));
        }
        for b in &shapes {
            for op in [ADD, AND, SHIFT_LEFT, SHIFT_RIGHT, COMPARE, CONCAT, CONCAT_RES, BUILD] {
                emit(job(op, &[*a, *b]));
            }
            for c in &shapes {
                emit(job(MID, &[*a, *b, *c]));
            }
        }
    }
}

/// Reads of every field of up to 3 bytes, every byte value among them; writes of every such field.
fn every_buffer_field(emit: Emit) {
    for byte in 0..=255 {
        for offset in 0..=9 {
            for length in 0..=9 {
                emit(job(READ, &[field_of(&[byte], offset, length)]));
            }
        }
    }
    for n in 0..=5u64 {
        for (offset, length) in (0..=8 * n + 1).flat_map(|offset| (0..=33).map(move |length| (offset, length))) {
            let old = [0x5a, 0xa5, 0xff, 0x00, 0x3c];
            let field = field_of(&old[..n as usize], offset, length);
            emit(job(READ, &[field]));
            emit(job(READ, &[field_of(&[0xff; 5][..n as usize], offset, length)]));
            for value in [
                number(0),
                number(u64::MAX),
                number(0x9c63_35ca_a5a5_5a5b),
                truth(0),
                truth(1),
                buffer(&[]),
                buffer(&[0xc9]),
                buffer(&[0x36, 0xc9, 0x5a, 0x69, 0xff]),
            ] {
                emit(job(WRITE, &[field, value]));
            }
        }
    }
}

/// Fields over 64 bits at each whole byte of 9 to 20 bytes.
fn every_long_field(emit: Emit) {
    for n in 9..=20u32 {
        for (byte, length) in (0..=n as u64 + 1).flat_map(|byte| (65..=8 * n as u64 + 1).map(move |length| (byte, length))) {
            let field = Operand { kind: BUFFER_FIELD, n, seed: 77 + n, offset: 8 * byte, length, ..Operand::default() };
            emit(Job { out_seed: 1, ..with_output(job(READ, &[field]), 3) });
            if n <= 11 {
                for value in [number(u64::MAX), number(0), truth(1), buffer(&[0x69; 8]), buffer(&[0x96; 12])] {
                    emit(job(WRITE, &[field, value]));
                }
                emit(job(AS_INTEGER, &[field]));
                emit(job(AS_BUFFER, &[field]));
            }
        }
    }
}

/// Every flags byte with each length, in the smallest region and one byte more; reads and writes.
fn every_field_unit(emit: Emit) {
    for (flags, length) in (0..=255).flat_map(|flags| [8, 16, 32, 64].map(|length| (flags, length))) {
        for n in [length as u32 / 8, length as u32 / 8 + 1, 16] {
            for seed in [0, 1, 5, 6] {
                let field = Operand { kind: FIELD_UNIT, flags, length, n, seed, ..Operand::default() };
                emit(job(UNIT, &[field]));
                for value in [0, 1, u64::MAX, 0x8000_0000_8000_8080, 0x1234_5678_9abc_def0] {
                    let value = if length == 64 { value } else { value & ((1 << length) - 1) };
                    emit(Job { write: 1, ..job(UNIT, &[field, number(value)]) });
                }
                emit(job(AS_INTEGER, &[field]));
            }
        }
    }
}

/// Buffers of one and two bytes as integers; all ASCII texts of up to two characters; longer ones over the characters that matter.
fn every_text(emit: Emit) {
    for x in 0..=65535u16 {
        let [low, high] = x.to_le_bytes();
        emit(job(AS_INTEGER, &[buffer(&[low, high])]));
        if high == 0 {
            emit(job(AS_INTEGER, &[buffer(&[low])]));
            emit(job(TO_INTEGER, &[buffer(&[low; 9])]));
        }
    }
    for a in 0..128u8 {
        emit(job(TO_INTEGER, &[text(&String::from_utf8(vec![a]).unwrap())]));
        for b in 0..128 {
            emit(job(TO_INTEGER, &[text(&String::from_utf8(vec![a, b]).unwrap())]));
            emit(job(TO_INTEGER, &[text(&String::from_utf8(vec![b'0', b'x', a, b]).unwrap())]));
        }
    }
    let letters = b"019aFxX-g ";
    for (a, b) in letters.iter().flat_map(|a| letters.iter().map(move |b| (*a, *b))) {
        for (c, d) in letters.iter().flat_map(|c| letters.iter().map(move |d| (*c, *d))) {
            emit(job(TO_INTEGER, &[text(&String::from_utf8(vec![a, b, c, d]).unwrap())]));
            emit(job(TO_INTEGER, &[text(&String::from_utf8(vec![a, b, c]).unwrap())]));
        }
    }
}

/// All texts of up to three bytes over three of them.
fn short_texts() -> Vec<Vec<u8>> {
    let mut all: Vec<Vec<u8>> = vec![vec![]];
    let mut at = 0;
    while at < all.len() {
        for byte in [0u8, 1, 127] {
            if all[at].len() < 3 {
                let mut longer = all[at].clone();
                longer.push(byte);
                all.push(longer);
            }
        }
        at += 1;
    }
    all
}

/// Mid, compare, Concat and ConcatRes of all short inputs.
fn every_part_and_pair(emit: Emit) {
    for (n, index, length) in (0..=6).flat_map(|n| (0..=8).flat_map(move |index| (0..=8).map(move |length| (n, index, length)))) {
        for source in [buffer(&[9, 8, 7, 6, 5, 4][..n]), text(&"abcdef"[..n])] {
            for index in [index, u64::MAX - length] {
                emit(job(MID, &[source, number(index), number(length)]));
            }
        }
    }
    let short = short_texts();
    for (a, b) in short.iter().flat_map(|a| short.iter().map(move |b| (a, b))) {
        for op in [COMPARE, CONCAT, CONCAT_RES] {
            emit(job(op, &[buffer(a), buffer(b)]));
        }
        let texts = [a, b].map(|bytes| text(std::str::from_utf8(bytes).unwrap()));
        for op in [COMPARE, CONCAT] {
            emit(job(op, &texts));
        }
    }
}

/// Shifts by every small count; a buffer of every small size; a status of every small number and of each bit.
fn every_number(emit: Emit) {
    for x in [1, u64::MAX, 0x8000_0000_0000_0001] {
        for count in (0..=70).chain([255, 256, 1 << 32, (1 << 32) + 1, u64::MAX]) {
            emit(job(SHIFT_LEFT, &[number(x), number(count)]));
            emit(job(SHIFT_RIGHT, &[number(x), number(count)]));
        }
    }
    for (size, n) in (0..=12u64).flat_map(|size| (0..=12usize).map(move |n| (size, n))) {
        emit(Job { out_seed: 1, ..with_output(job(BUILD, &[number(size), buffer(&[0x77; 12][..n])]), 2) });
    }
    for value in 0..=70 {
        emit(job(AS_STATUS, &[number(value)]));
        emit(job(AS_STATUS, &[number(1 << (value % 64))]));
    }
}

/// Great inputs: 65,536 bytes and a little less, texts of many zeros.
pub fn great(emit: Emit) {
    for n in [65534, 65535, 65536u32] {
        let whole = 8 * n as u64;
        let bytes = Operand { kind: BUFFER, n, seed: n, ..Operand::default() };
        let letters = Operand { kind: STRING, n, seed: 1 << 31 | n, ..Operand::default() };
        let digits = Operand { kind: STRING, n, seed: 3, ..Operand::default() };
        for op in [AS_INTEGER, AS_BUFFER, AS_STRING, TO_INTEGER, BUFFER_LENGTH, STRING_LENGTH] {
            for o in [bytes, letters, digits] {
                emit(job(op, &[o]));
            }
        }
        for (offset, length) in
            [(0, whole), (0, whole + 1), (8, whole - 8), (16, whole - 8), (whole - 32, 32), (whole - 31, 32), (whole, 0), (whole - 80, 80)]
        {
            let field = Operand { kind: BUFFER_FIELD, offset, length, ..bytes };
            emit(job(READ, &[field]));
            for value in [number(u64::MAX), bytes, buffer(&[1, 2, 3])] {
                emit(Job { show: n - 16, ..job(WRITE, &[field, value]) });
            }
        }
        for (index, length) in [(0, n), (n - 1, 1), (n, 1), (1, n), (n - 3, 2)] {
            emit(job(MID, &[bytes, number(index as u64), number(length as u64)]));
            emit(job(MID, &[letters, number(index as u64), number(length as u64)]));
        }
        emit(job(COMPARE, &[bytes, bytes]));
        emit(job(COMPARE, &[letters, Operand { n: n - 1, ..letters }]));
        emit(job(CONCAT, &[bytes, buffer(&[5; 8])]));
        emit(job(CONCAT, &[Operand { n: 8, ..letters }, letters]));
        emit(job(CONCAT_RES, &[bytes, buffer(&[])]));
        emit(job(CONCAT_RES, &[buffer(&[1, 2, 3, 4, 5, 6]), bytes]));
        emit(job(BUILD, &[number(n as u64), bytes]));
        emit(job(BUILD, &[number(n as u64 - 1), bytes]));
        let unit = Operand { kind: FIELD_UNIT, flags: 4, length: 64, ..bytes };
        emit(job(UNIT, &[unit]));
        emit(Job { write: 1, ..job(UNIT, &[unit, number(u64::MAX)]) });
    }
}

/// Every short input of each function.
pub fn exhaustive(emit: Emit) {
    every_shape(emit);
    every_buffer_field(emit);
    every_long_field(emit);
    every_field_unit(emit);
    every_text(emit);
    every_part_and_pair(emit);
    every_number(emit);
    great(emit);
}

pub const COMPARED: [u8; 28] = [
    UNIT,
    READ,
    WRITE,
    FLAGS,
    TYPE,
    AS_INTEGER,
    AS_BOOL,
    AS_BUFFER,
    AS_STRING,
    AS_TYPE,
    AS_STATUS,
    TO_INTEGER,
    WRITE_VALUE,
    WRITE_VALUE_SELF,
    ADD,
    AND,
    INCREMENT,
    DECREMENT,
    SHIFT_LEFT,
    SHIFT_RIGHT,
    COMPARE,
    MID,
    CONCAT,
    CONCAT_RES,
    BUILD,
    BUFFER_LENGTH,
    STRING_LENGTH,
    DEFAULT_STATUS,
];

/// How often chance asks each.
const WEIGHTS: [(u8, u64); 26] = [
    (UNIT, 9),
    (READ, 8),
    (WRITE, 12),
    (TYPE, 1),
    (AS_INTEGER, 4),
    (AS_BOOL, 1),
    (AS_BUFFER, 3),
    (AS_STRING, 2),
    (AS_TYPE, 4),
    (AS_STATUS, 1),
    (TO_INTEGER, 5),
    (WRITE_VALUE, 8),
    (WRITE_VALUE_SELF, 3),
    (ADD, 3),
    (AND, 3),
    (INCREMENT, 2),
    (DECREMENT, 2),
    (SHIFT_LEFT, 4),
    (SHIFT_RIGHT, 4),
    (COMPARE, 6),
    (MID, 5),
    (CONCAT, 6),
    (CONCAT_RES, 4),
    (BUILD, 4),
    (BUFFER_LENGTH, 1),
    (STRING_LENGTH, 1),
];

/// A job by chance.
pub fn by_chance(c: &mut Chance) -> Job {
    let all: u64 = WEIGHTS.iter().map(|(_, weight)| weight).sum();
    let mut at = c.below(all);
    let op = WEIGHTS
        .iter()
        .find(|(_, weight)| {
            if at < *weight {
                true
            } else {
                at -= weight;
                false
            }
        })
        .unwrap()
        .0;
    chance_of(c, op)
}

/// A job of one function by chance.
pub fn chance_of(c: &mut Chance, op: u8) -> Job {
    let mut made = Job { op, out_seed: c.seed(), ..Job::default() };
    if op == UNIT {
        made.write = c.below(3).min(1) as u8;
    }
    if op == AS_TYPE {
        made.made = c.pick(&TYPES);
    }
    made.operands = match op {
        UNIT | READ | WRITE | WRITE_VALUE | WRITE_VALUE_SELF => chance_field(c, op),
        MID | COMPARE | BUILD | SHIFT_LEFT | SHIFT_RIGHT => chance_operator(c, op),
        TO_INTEGER => [c.operand_of(&[STRING]), Operand::default(), Operand::default()],
        AS_STATUS => [c.operand_of(&[INTEGER, INTEGER, BOOLEAN]), Operand::default(), Operand::default()],
        CONCAT_RES => [c.operand_of(&[BUFFER, BUFFER, BUFFER_FIELD]), c.operand_of(&[BUFFER, BUFFER, BUFFER_FIELD]), Operand::default()],
        op => std::array::from_fn(|which| if which < operands_of(op) { c.any_operand() } else { Operand::default() }),
    };
    made.show = c.below(made.operands[0].n as u64 + 2) as u32;
    let room = c.pick(&[0, 0, 0, 1, 7, 30]);
    with_output(made, room)
}

/// A field, and what is written to it.
fn chance_field(c: &mut Chance, op: u8) -> [Operand; 3] {
    let field = match op {
        READ => c.operand(BUFFER_FIELD),
        WRITE => in_bounds(c),
        _ => c.operand(FIELD_UNIT),
    };
    let value = match op {
        UNIT => Operand { value: fitting(c, field.length), ..Operand::default() },
        WRITE => c.operand_of(&[INTEGER, BUFFER, BUFFER, BOOLEAN]),
        WRITE_VALUE_SELF if c.one_in(2) => Operand { kind: FIELD_UNIT, flags: c.below(2) as u8, length: 8, ..Operand::default() },
        READ => Operand::default(),
        _ => fitting_operand(c, field.length),
    };
    [field, value, Operand::default()]
}

fn chance_operator(c: &mut Chance, op: u8) -> [Operand; 3] {
    let left = match op {
        MID => c.operand_of(&[STRING, BUFFER]),
        COMPARE => c.operand_of(&[INTEGER, BOOLEAN, BUFFER, STRING, FIELD_UNIT]),
        _ => c.any_operand(),
    };
    let near = c.below(left.n as u64 + 3);
    let right = match (op, c.below(6)) {
        (MID, 0..3) => number(near),
        (MID, _) => c.operand_of(&[INTEGER, BUFFER_FIELD, BUFFER]),
        (COMPARE, 0) => left, // an equal one, of its own bytes
        (COMPARE, 1..3) => c.operand(left.kind),
        (SHIFT_LEFT | SHIFT_RIGHT, 0..3) => number(c.below(66)),
        (BUILD, _) => c.operand(BUFFER),
        _ => c.any_operand(),
    };
    match op {
        BUILD if c.one_in(2) => [number((right.n as u64 + c.below(4)).saturating_sub(1)), right, Operand::default()],
        MID if c.one_in(2) => [left, right, number(c.below(left.n as u64 + 3))],
        MID => [left, right, c.operand_of(&[INTEGER, BUFFER_FIELD, BUFFER])],
        _ => [left, right, Operand::default()],
    }
}

/// A number that fits so many bits.
fn fitting(c: &mut Chance, length: u64) -> u64 {
    let x = c.number();
    if length >= 64 {
        x
    } else {
        x & ((1 << length) - 1)
    }
}

fn fitting_operand(c: &mut Chance, length: u64) -> Operand {
    match c.below(6) {
        0 => c.any_operand(),
        1 => truth(if length == 64 { c.below(2) } else { 0 }),
        2 => {
            let value = fitting(c, length).to_le_bytes();
            buffer(&value[..c.below(9) as usize])
        }
        3 => {
            let mut o = c.operand(BUFFER_FIELD);
            o.length = o.length.min(length.min(32));
            o
        }
        4 => {
            let mut o = c.operand(FIELD_UNIT);
            o.flags &= 0xf1;
            o.length = o.length.min(length);
            o
        }
        _ => number(fitting(c, length)),
    }
}

fn in_bounds(c: &mut Chance) -> Operand {
    let mut o = c.operand(BUFFER_FIELD);
    let room = (o.n as u64 * 8).saturating_sub(o.length);
    o.offset = o.offset.min(room);
    o.length = o.length.min(o.n as u64 * 8);
    if o.length > 64 {
        o.offset -= o.offset % 8;
    }
    o
}
