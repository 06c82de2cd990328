//! A job and an answer: the columns of the program `vectors` (tests/lines.py says them), the bytes that a seed names, and the two forms of a line.
use std::fmt::Write;

#[derive(Clone, Copy, Default, PartialEq, Eq, Hash)]
pub struct Operand {
    pub kind: u8,
    pub flags: u8,
    pub space: u8,
    pub offset: u64,
    pub length: u64,
    pub value: u64,
    pub n: u32,
    pub seed: u32,
    pub head: [u8; 32],
}

#[derive(Clone, Copy, Default, PartialEq, Eq, Hash)]
pub struct Job {
    pub op: u8,
    pub write: u8,
    pub made: u64,
    pub show: u32,
    pub operands: [Operand; 3],
    pub out: u32,
    pub out_seed: u32,
}

pub const UNIT: u8 = 1;
pub const READ: u8 = 4;
pub const WRITE: u8 = 5;
pub const SELF: u8 = 6;
pub const FLAGS: u8 = 7;
pub const TYPE: u8 = 8;
pub const AS_INTEGER: u8 = 9;
pub const AS_BOOL: u8 = 10;
pub const AS_BUFFER: u8 = 11;
pub const AS_STRING: u8 = 12;
pub const AS_TYPE: u8 = 13;
pub const AS_STATUS: u8 = 14;
pub const TO_INTEGER: u8 = 15;
pub const WRITE_VALUE: u8 = 16;
pub const WRITE_VALUE_SELF: u8 = 17;
pub const ADD: u8 = 18;
pub const AND: u8 = 19;
pub const INCREMENT: u8 = 20;
pub const DECREMENT: u8 = 21;
pub const SHIFT_LEFT: u8 = 22;
pub const SHIFT_RIGHT: u8 = 23;
pub const COMPARE: u8 = 24;
pub const MID: u8 = 25;
pub const CONCAT: u8 = 26;
pub const CONCAT_RES: u8 = 27;
pub const BUILD: u8 = 28;
pub const BUFFER_LENGTH: u8 = 29;
pub const STRING_LENGTH: u8 = 30;
pub const DEFAULT_STATUS: u8 = 31;

pub const NAMES: [&str; 32] = [
    "",
    "read_field, write_field",
    "next_access",
    "check_field, count_accesses",
    "read_buffer_field",
    "write_buffer_field",
    "write_buffer_field_self",
    "FieldFlags",
    "type_of",
    "as_integer",
    "as_bool",
    "as_buffer",
    "as_string",
    "as_type",
    "as_status",
    "to_integer",
    "write_value",
    "write_value_self",
    "def_add",
    "def_and",
    "def_increment",
    "def_decrement",
    "def_shift_left",
    "def_shift_right",
    "compare",
    "def_mid, def_mid_part",
    "def_concat",
    "def_concat_res",
    "def_buffer",
    "buffer_length",
    "string_length",
    "default_status",
];

pub const BOOLEAN: u8 = 0;
pub const INTEGER: u8 = 1;
pub const STRING: u8 = 2;
pub const BUFFER: u8 = 3;
pub const BUFFER_FIELD: u8 = 4;
pub const FIELD_UNIT: u8 = 5;
pub const KINDS: u8 = 14;

/// The columns of an answer, each with its digits.
pub const ANSWER: [(&str, usize); 18] = [
    ("status", 2),
    ("present", 2),
    ("wanted", 2),
    ("result", 2),
    ("value", 16),
    ("count", 16),
    ("sum1", 8),
    ("shown1", 32),
    ("sum2", 8),
    ("shown2", 32),
    ("step_status", 2),
    ("held", 16),
    ("steps", 16),
    ("check_status", 2),
    ("count_status", 2),
    ("counted", 16),
    ("sum_out", 8),
    ("shown_out", 32),
];

/// How many operands an operation looks at.
pub fn operands_of(op: u8) -> usize {
    match op {
        DEFAULT_STATUS => 0,
        MID => 3,
        UNIT | WRITE | WRITE_VALUE | WRITE_VALUE_SELF | ADD | AND | SHIFT_LEFT | SHIFT_RIGHT | COMPARE | CONCAT | CONCAT_RES | BUILD => 2,
        _ => 1,
    }
}

/// The n bytes that a seed names.
pub fn pattern(seed: u32, n: u32, head: &[u8; 32]) -> Vec<u8> {
    let n = n as usize;
    match seed {
        0 => vec![0; n],
        1 => vec![255; n],
        2 => (0..n).map(|i| if i < 32 { head[i] } else { 0 }).collect(),
        3 => (0..n).map(|i| if i + 1 == n { b'1' } else { b'0' }).collect(),
        _ => {
            let mask = if seed >> 31 == 1 { 127 } else { 255 };
            let mut x = seed;
            let mut bytes = Vec::with_capacity(n);
            for _ in 0..n {
                bytes.push((x >> 16) as u8 & mask);
                x = x.wrapping_mul(1103515245).wrapping_add(12345);
            }
            bytes
        }
    }
}

impl Operand {
    pub fn bytes(&self) -> Vec<u8> {
        pattern(self.seed, self.n, &self.head)
    }
}

impl Job {
    pub fn output(&self) -> Vec<u8> {
        pattern(if self.out_seed == 2 { 0 } else { self.out_seed }, self.out, &[0; 32])
    }

    /// The full line.
    pub fn write_line(&self, line: &mut String) {
        write!(line, "{:02x} {:02x} {:016x} {:016x} {:08x} ", self.op, self.write, 0, self.made, self.show).unwrap();
        for o in &self.operands {
            write!(line, "{:02x} {:02x} {:02x} {:016x} {:016x} ", o.kind, o.flags, o.space, o.offset, o.length).unwrap();
            write!(line, "{:016x} {:08x} {:08x} ", o.value, o.n, o.seed).unwrap();
            for byte in &o.head {
                write!(line, "{byte:02x}").unwrap();
            }
            line.push(' ');
        }
        writeln!(line, "{:08x} {:08x}", self.out, self.out_seed).unwrap();
    }

    /// The job of a full line.
    pub fn of_line(line: &str) -> Job {
        let mut words = line.split_ascii_whitespace();
        let mut word = || words.next().expect("a column");
        let number = |digits: &str| u64::from_str_radix(digits, 16).expect("a number");
        let mut job = Job { op: number(word()) as u8, write: number(word()) as u8, ..Job::default() };
        word(); // held
        job.made = number(word());
        job.show = number(word()) as u32;
        for o in &mut job.operands {
            [o.kind, o.flags, o.space] = std::array::from_fn(|_| number(word()) as u8);
            [o.offset, o.length, o.value] = std::array::from_fn(|_| number(word()));
            [o.n, o.seed] = std::array::from_fn(|_| number(word()) as u32);
            let digits = word();
            o.head = std::array::from_fn(|i| number(&digits[2 * i..2 * i + 2]) as u8);
        }
        [job.out, job.out_seed] = std::array::from_fn(|_| number(word()) as u32);
        job
    }

    /// The short form; columns that are 0 are left out.
    pub fn short(&self) -> String {
        let mut words = Vec::new();
        let mut word = |name: &str, which: &str, number: u64| {
            if number != 0 {
                words.push(format!("{name}{which}:{number:x}"));
            }
        };
        word("op", "", self.op as u64);
        word("write", "", self.write as u64);
        word("made", "", self.made);
        word("show", "", self.show as u64);
        word("out", "", self.out as u64);
        word("out_seed", "", self.out_seed as u64);
        for (o, which) in self.operands.iter().zip(["1", "2", "3"]) {
            word("kind", which, o.kind as u64);
            word("flags", which, o.flags as u64);
            word("space", which, o.space as u64);
            word("offset", which, o.offset);
            word("length", which, o.length);
            word("value", which, o.value);
            word("n", which, o.n as u64);
            word("seed", which, o.seed as u64);
        }
        for (o, which) in self.operands.iter().zip(["1", "2", "3"]) {
            let used = 32 - o.head.iter().rev().take_while(|byte| **byte == 0).count();
            if used > 0 {
                words.push(format!("head{which}:{}", hex(&o.head[..used])));
            }
        }
        words.join(" ")
    }
}

pub fn hex(bytes: &[u8]) -> String {
    bytes.iter().map(|byte| format!("{byte:02x}")).collect()
}

/// Adler-32.
pub fn sum_of(bytes: &[u8]) -> u32 {
    let (mut a, mut b) = (1u32, 0u32);
    for part in bytes.chunks(5000) {
        for byte in part {
            a += *byte as u32;
            b += a;
        }
        a %= 65521;
        b %= 65521;
    }
    b << 16 | a
}

/// Sixteen bytes from one on, 0 past the end.
pub fn shown(bytes: &[u8], from: u32) -> [u8; 16] {
    std::array::from_fn(|i| bytes.get(from as usize + i).copied().unwrap_or(0))
}

/// What is said of an answer: some of its columns, by place in ANSWER, as digits.
#[derive(Clone, Default, PartialEq, Eq, Debug)]
pub struct Told(pub Vec<(usize, String)>);

impl Told {
    pub fn number(&mut self, name: &str, number: u64) {
        let at = column(name);
        self.0.push((at, format!("{number:0width$x}", width = ANSWER[at].1)));
    }

    /// The sum and the shown bytes, of `sum` + which and `shown` + which.
    pub fn bytes(&mut self, which: &str, bytes: &[u8], from: u32) {
        self.number(&format!("sum{which}"), sum_of(bytes) as u64);
        self.0.push((column(&format!("shown{which}")), hex(&shown(bytes, from))));
    }

    pub fn get(&self, name: &str) -> u64 {
        let at = column(name);
        self.0.iter().find(|(place, _)| *place == at).map_or(0, |(_, digits)| u64::from_str_radix(digits, 16).unwrap())
    }

    /// The columns that a full answer line says otherwise.
    pub fn differing(&self, line: &str) -> Vec<String> {
        let words: Vec<&str> = line.split_ascii_whitespace().collect();
        if words.len() != ANSWER.len() || words.iter().zip(ANSWER).any(|(word, (_, width))| word.len() != width) {
            return vec![format!("not an answer line: {line}")];
        }
        let other = self.0.iter().filter(|(at, digits)| words[*at] != digits);
        other.map(|(at, digits)| format!("{}: the Rust {digits}, here {}", ANSWER[*at].0, words[*at])).collect()
    }

    /// The short form, numbers without leading zeros.
    pub fn short(&self) -> String {
        let words = self.0.iter().map(|(at, digits)| match ANSWER[*at] {
            (name, 32) => format!("{name}:{digits}"),
            (name, _) => format!("{name}:{:x}", u64::from_str_radix(digits, 16).unwrap()),
        });
        words.collect::<Vec<_>>().join(" ")
    }
}

fn column(name: &str) -> usize {
    ANSWER.iter().position(|(known, _)| *known == name).expect("a column of an answer")
}
