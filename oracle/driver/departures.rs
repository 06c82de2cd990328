//! Outside the domain: where the text and the library part, by what the job leaves the domain for, each with its smallest input.
use crate::rust::{Reply, Rust};
use crate::Options;
use jobs::domain;
use jobs::job::*;
use jobs::make::*;
use std::collections::{BTreeMap, BTreeSet};

/// A class of jobs: the rule of the domain that is left, and what each side says.
type Class = (&'static str, String);

#[derive(Default)]
struct Met {
    jobs: u64,
    functions: BTreeSet<&'static str>,
    smallest: Option<(u128, Job, String)>,
}

#[derive(Default)]
struct Departures {
    jobs: u64,
    met: BTreeMap<Class, Met>,
    agreed: BTreeMap<&'static str, u64>,
}

/// The rules of the domain that an operand leaves.
fn operand_leaves(o: &Operand) -> Vec<&'static str> {
    let within = o.offset as u128 + o.length as u128 <= o.n as u128 * 8;
    let rules: &[(bool, &str)] = match o.kind {
        STRING => &[(!o.bytes().is_ascii(), "a string that is not ASCII")],
        BUFFER_FIELD => &[
            (o.offset.checked_add(o.length).is_none(), "buffer field, offset + length from 2^64 on"),
            (within && o.length > 32 && o.length <= 64, "buffer field of 33 to 64 bits"),
            (within && o.length > 64 && o.offset % 8 != 0, "buffer field over 64 bits at an offset not divisible by 8"),
        ],
        FIELD_UNIT => &[
            (o.space > 2, "field unit in a space of another kind"),
            (o.space == 1 || o.space == 2, "field unit in SystemIo or PciConfig"),
            (o.length == 0 || o.length > 64, "field unit of length 0 or over 64"),
            (o.length > 0 && o.length <= 64 && !within, "field unit outside the region"),
            (o.offset != 0, "field unit at an offset that is not 0"),
            (domain::width(o.flags).is_some_and(|access| access > o.length && o.length > 0), "field unit, access wider than the length"),
            (
                o.length <= 64 && domain::width(o.flags).is_none_or(|access| access < o.length) && !o.length.is_power_of_two(),
                "field unit of a length that is no power of two",
            ),
        ],
        _ => &[],
    };
    let long = (o.n > 65536, "a lent slice over 65,536 bytes");
    rules.iter().chain([&long]).filter(|(left, _)| *left).map(|(_, rule)| *rule).collect()
}

/// The rules of the domain that a job leaves.
fn leaves(job: &Job) -> BTreeSet<&'static str> {
    let used = if job.op == UNIT || job.op == BUILD { 1 } else { operands_of(job.op) };
    let mut rules: BTreeSet<&str> = job.operands[..used].iter().flat_map(operand_leaves).collect();
    let own = match job.op {
        UNIT | WRITE_VALUE | WRITE_VALUE_SELF if (job.op != UNIT || job.write == 1) && !domain::fits(job) => "a written value that does not fit",
        WRITE if job.operands[1].kind == BOOLEAN && job.operands[0].length == 0 => "a Boolean into a buffer field of length 0",
        WRITE if !domain::write_inside(job) => "a buffer field written out of bounds",
        SELF => "a Buffer written into a field of itself",
        AS_TYPE if job.made == 5 => "named type FieldUnit",
        TO_INTEGER if !domain::text_inside(&job.operands[0]) => "a repeated `0x` or a plus sign",
        INCREMENT | DECREMENT | MID if rules.is_empty() && !domain::inside(job) => "overflow",
        CONCAT if !domain::concat_inside(job) => "a Boolean in Concat",
        _ if rules.is_empty() => "inside the domain: accesses",
        _ => return rules,
    };
    rules.insert(own);
    rules
}

/// Fewer bytes, then smaller numbers.
fn size_of_job(job: &Job) -> u128 {
    let operands = &job.operands[..operands_of(job.op).max(1)];
    let bytes: u128 = operands.iter().map(|o| o.n as u128).sum();
    let log = |x: u64| 64 - x.leading_zeros() as u128;
    let numbers: u128 = operands.iter().map(|o| o.length.min(4096) as u128 + o.offset.min(4096) as u128 + log(o.value)).sum();
    let rest: u128 =
        operands.iter().map(|o| o.flags as u128 + o.kind as u128 + o.seed.min(9) as u128 + o.head.iter().map(|b| *b as u128).sum::<u128>()).sum();
    bytes << 80 | numbers << 40 | rest
}

/// Digits become #, so that a message is one class.
fn plain(said: &str) -> String {
    let said = said.replace(", bytes left: ", ", bytes already changed|");
    let mut text: String = said.split('|').next().unwrap().chars().map(|c| if c.is_ascii_digit() { '#' } else { c }).collect();
    while text.contains("##") {
        text = text.replace("##", "#");
    }
    text
}

fn ours(line: &str) -> String {
    match u8::from_str_radix(&line[..2], 16).unwrap() {
        0 => "accepted".to_string(),
        number => number.to_string(),
    }
}

/// What differs, in words.
fn columns_in_words(other: &[String]) -> String {
    let columns: BTreeSet<&str> = other
        .iter()
        .map(|text| match text.split(':').next().unwrap() {
            "sum1" | "shown1" | "sum2" | "shown2" => "bytes after",
            "sum_out" | "shown_out" => "output",
            "held" => "value",
            column => column,
        })
        .collect();
    columns.into_iter().collect::<Vec<_>>().join(", ")
}

fn function(job: &Job) -> &'static str {
    match job.op {
        UNIT if job.write == 0 => "read_field",
        UNIT => "write_field",
        op => NAMES[op as usize],
    }
}

impl Departures {
    /// Jobs that leave one rule alone.
    fn take(&mut self, job: &Job, line: &str, reply: Reply) {
        let rules = leaves(job);
        let (Some(mut rule), 1) = (rules.first().copied(), rules.len()) else { return };
        self.jobs += 1;
        let (class, detail) = match reply {
            Reply::Unasked => return,
            Reply::Other(said) if said.starts_with("bytes: ") => {
                rule = "an output shorter than the result";
                (format!("here {}; the Rust {}", ours(line), plain(&said)), said)
            }
            Reply::Other(said) => (format!("here {}; the Rust {}", ours(line), plain(&said)), said),
            Reply::Answer(told) => {
                let other = told.differing(line);
                if other.is_empty() {
                    *self.agreed.entry(rule).or_default() += 1;
                    return;
                }
                let theirs = match told.get("status") {
                    0 => "accepted".to_string(),
                    number => number.to_string(),
                };
                let what = if theirs == ours(line) { format!(", other {}", columns_in_words(&other)) } else { String::new() };
                (format!("here {}; the Rust {theirs}{what}", ours(line)), other.join("; "))
            }
        };
        let met = self.met.entry((rule, class)).or_default();
        met.jobs += 1;
        met.functions.insert(function(job));
        let size = size_of_job(job);
        if met.smallest.as_ref().is_none_or(|(smallest, ..)| size < *smallest) {
            met.smallest = Some((size, *job, detail));
        }
    }

    fn table(&self) {
        println!("{} jobs that leave one rule alone", self.jobs);
        for ((rule, class), met) in &self.met {
            let (_, job, detail) = met.smallest.as_ref().unwrap();
            println!("{rule}: {class}");
            println!("    {} jobs; {}", met.jobs, met.functions.iter().copied().collect::<Vec<_>>().join(", "));
            println!("    smallest, {}: {}", function(job), job.short());
            println!("    {detail}");
        }
        for (rule, jobs) in &self.agreed {
            println!("{rule}: both say the same in {jobs} jobs");
        }
    }
}

pub fn run(options: &Options) -> bool {
    let mut library = options.library();
    let mut rust = Rust::new();
    rust.count_all = true;
    let mut departures = Departures::default();
    let mut waiting = Vec::new();
    let mut flush = |jobs: &mut Vec<Job>| {
        let (lines, replies) = library.answers(jobs, || jobs.iter().map(|job| rust.ask(job)).collect::<Vec<_>>());
        for ((job, line), reply) in jobs.iter().zip(&lines).zip(replies) {
            departures.take(job, line, reply);
        }
        jobs.clear();
    };
    wild(&mut |job| {
        if !domain::inside(&job) || [UNIT, BUILD, AS_BUFFER].contains(&job.op) {
            waiting.push(job);
        }
        if waiting.len() == 8192 {
            flush(&mut waiting);
        }
    });
    flush(&mut waiting);
    departures.table();
    same_buffer_twice();
    true
}

fn wild(emit: &mut dyn FnMut(Job)) {
    exhaustive(emit);
    wild_units(emit);
    wild_buffer_fields(emit);
    wild_values(emit);
}

/// Field units of any place, length and space.
fn wild_units(emit: &mut dyn FnMut(Job)) {
    let places = [0, 1, 4, 7, 8, 9, 16, 32, u64::MAX];
    let lengths = [0, 1, 4, 7, 8, 9, 12, 16, 17, 24, 32, 33, 40, 63, 64, 65, 128, 129];
    for (n, access) in [0, 1, 2, 3, 4, 8, 9, 16].iter().flat_map(|n| [0u8, 1, 2, 3, 4, 6].map(|access| (*n, access))) {
        for (rule, space) in (0..4u8).flat_map(|rule| (0..4).map(move |space| (rule, space))) {
            for (offset, length) in places.iter().flat_map(|offset| lengths.map(|length| (*offset, length))) {
                for seed in [0, 1, 2] {
                    let mut field = Operand { kind: FIELD_UNIT, flags: access | rule << 5, space, offset, length, n, seed, ..Operand::default() };
                    if seed == 2 {
                        set_head(&mut field, &[1, 2, 3, 4, 5, 6, 7, 8, 9]);
                    }
                    emit(job(UNIT, &[field]));
                    for value in [0, 1, 0x123] {
                        emit(Job { write: 1, ..job(UNIT, &[field, number(value)]) });
                    }
                    if seed == 0 && access < 2 {
                        emit(job(AS_INTEGER, &[field]));
                        emit(job(WRITE_VALUE, &[field, text("")]));
                        emit(job(WRITE_VALUE, &[field, truth(1)]));
                    }
                }
            }
        }
    }
}

/// Buffer fields of any place and length.
fn wild_buffer_fields(emit: &mut dyn FnMut(Job)) {
    for n in 0..=10u64 {
        let mut fields: Vec<(u64, u64)> = (0..=8 * n + 2).flat_map(|offset| (0..=8 * n + 2).map(move |length| (offset, length))).collect();
        fields.extend([(u64::MAX, 1), (u64::MAX, 0), (0, u64::MAX), (u64::MAX, u64::MAX), (1, u64::MAX), (u64::MAX - 7, 8)]);
        for (offset, length) in fields {
            for seed in [0, 1] {
                let field = Operand { kind: BUFFER_FIELD, n: n as u32, seed, offset, length, ..Operand::default() };
                emit(job(READ, &[field]));
                if n < 3 || n > 8 {
                    for value in [number(0), number(u64::MAX), truth(0), truth(1), buffer(&[0xff; 10]), buffer(&[]), text("")] {
                        emit(job(WRITE, &[field, value]));
                    }
                    emit(job(SELF, &[field]));
                }
            }
        }
    }
}

/// Values that leave the domain, and some inside it beside them.
fn odd_values() -> Vec<Operand> {
    let bytes = [1, 2, 3, 4, 5, 6, 7, 8, 9, 10];
    let mut all: Vec<Operand> = [0, 1].map(truth).to_vec();
    all.extend([0, 1, u64::MAX].map(number));
    all.extend(["\u{e9}", "a\u{e9}b", "+", "+5", "0x+5", "0x0x10", "0x0x", "ab"].map(text));
    all.extend([&[7, 8][..], &[]].map(buffer));
    all.extend([(0, 33), (0, 64), (1, 65), (3, 72)].map(|(offset, length)| field_of(&bytes, offset, length)));
    all.extend([(u64::MAX, 1), (0, 33)].map(|(offset, length)| field_of(&[], offset, length)));
    all.extend([unit_of(&[7], 0, 7), unit_of(&[7], 0, 0), unit_of(&[], 0, 8), Operand { offset: 8, ..unit_of(&[7, 8], 0, 8) }]);
    all.extend([1, 3].map(|space| Operand { space, ..unit_of(&[7], 0, 8) }));
    all
}

/// Such values through every function.
fn wild_values(emit: &mut dyn FnMut(Job)) {
    emit(job(AS_INTEGER, &[Operand { kind: BUFFER, n: 65537, ..Operand::default() }]));
    emit(Job { out: 0, ..job(AS_BUFFER, &[buffer(&[1])]) });
    emit(job(BUILD, &[truth(1), buffer(&[])]));
    let odd = odd_values();
    for &a in &odd {
        for op in [TYPE, AS_INTEGER, AS_BOOL, AS_BUFFER, AS_STRING, AS_STATUS, TO_INTEGER, INCREMENT, DECREMENT, BUFFER_LENGTH, STRING_LENGTH] {
            emit(job(op, &[a]));
        }
        for made in [1, 2, 3, 4, 5, 6, 8, 9, 10, 11, 12, 13, 14] {
            emit(Job { made, ..job(AS_TYPE, &[a]) });
        }
        for &b in &odd {
            for op in [ADD, COMPARE, CONCAT, CONCAT_RES, BUILD] {
                emit(job(op, &[a, b]));
            }
            for &c in &odd {
                emit(job(MID, &[a, b, c]));
            }
        }
    }
}

/// An operand that is the same buffer twice: no job can say it, so the text alone is asked.
fn same_buffer_twice() {
    for op in [COMPARE, CONCAT, CONCAT_RES, ADD] {
        println!("{} of a buffer with itself | the Rust {}", NAMES[op as usize], Rust::new().twice(op));
    }
}
