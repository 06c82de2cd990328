//! A list of the text's answers in the short form: the great inputs, of every short input one of each sort, and chance.
use crate::rust::{Reply, Rust};
use crate::Options;
use jobs::domain;
use jobs::job::*;
use jobs::make::{chance_of, exhaustive, great, Chance, COMPARED};
use std::collections::{HashMap, HashSet};

/// How many lines each function has, of 20,000.
fn share(op: u8) -> usize {
    match op {
        UNIT | READ | WRITE => 2200,
        TO_INTEGER | WRITE_VALUE => 1400,
        AS_INTEGER | COMPARE | MID => 1200,
        CONCAT | AS_TYPE => 800,
        SHIFT_LEFT | SHIFT_RIGHT | CONCAT_RES | BUILD | WRITE_VALUE_SELF => 600,
        ADD | AND | AS_BUFFER | AS_STRING => 400,
        FLAGS | INCREMENT | DECREMENT => 256,
        TYPE | BUFFER_LENGTH | STRING_LENGTH | AS_STATUS | AS_BOOL => 150,
        _ => 1,
    }
}

/// What makes an operand a limit of its kind.
fn operand_sort(o: &Operand) -> u64 {
    let size = o.n as u64 * 8;
    let place = match o.kind {
        BUFFER_FIELD => (o.offset.saturating_add(o.length).cmp(&size) as i8 + 1) as u64 + 3 * o.length.min(70) + 300 * (o.offset % 8),
        FIELD_UNIT if domain::width(o.flags).is_none() => 200 * (o.flags & 15) as u64,
        FIELD_UNIT => (o.length == size) as u64 + 2 * o.length + 200 * (o.flags & 0x6f) as u64,
        INTEGER => {
            3 * (64 - o.value.leading_zeros() as u64) + o.value.is_power_of_two() as u64 + 2 * o.value.wrapping_add(1).is_power_of_two() as u64
        }
        STRING => o.n.min(12) as u64 + 20 * o.head[0] as u64,
        _ => o.n.min(20) as u64 + (o.n > 65000) as u64 * o.n as u64,
    };
    place * 16 + o.kind as u64
}

/// What a job and its answer have in common with others.
fn sort_of(job: &Job, told: &Told) -> Vec<u64> {
    let operands = job.operands[..operands_of(job.op)].iter().map(operand_sort);
    let answer = ["status", "present", "wanted", "result"].map(|name| told.get(name));
    operands.chain(answer).chain([job.op as u64, job.write as u64, job.made]).collect()
}

/// Columns that say something of this job; the sums stand for the shown bytes.
fn worth(job: &Job, told: Told) -> Told {
    let refused = told.get("status") != 0;
    let said = |name: &str| match name {
        "present" | "wanted" => refused,
        "value" => told.get("value") != 0 || [1, 6, 7, 9].contains(&told.get("result")),
        "sum1" => job.operands[0].n > 0,
        "sum2" => job.op == UNIT && job.write == 1 || job.op != UNIT && job.operands[1].n > 0,
        "sum_out" => job.out > 0 || job.op == MID,
        "check_status" | "count_status" => refused,
        name => !name.starts_with("shown"),
    };
    let kept = told.0.iter().filter(|(at, _)| said(ANSWER[*at].0)).cloned();
    Told(kept.collect())
}

struct List {
    rust: Rust,
    sorts: HashSet<Vec<u64>>,
    jobs: HashSet<Job>,
    lines: HashMap<u8, usize>,
    refused: HashMap<u8, usize>,
}

impl List {
    /// Writes the job's line, if it is a new one, and of a new sort where that is asked; of a function at most half are refusals.
    fn take(&mut self, job: &Job, new_sort: bool) {
        let mut job = Job { show: 0, ..*job };
        if job.out == 0 {
            job.out_seed = 0;
        }
        if !domain::inside(&job) || self.jobs.contains(&job) {
            return;
        }
        if let Reply::Answer(told) = self.rust.ask(&job) {
            let refused = self.refused.entry(job.op).or_default();
            let is_refused = told.get("status") != 0;
            if is_refused && *refused >= share(job.op) / 2 && job.op != FLAGS {
                return;
            }
            if self.sorts.insert(sort_of(&job, &told)) || !new_sort {
                *refused += is_refused as usize;
                self.jobs.insert(job);
                *self.lines.entry(job.op).or_default() += 1;
                println!("{} -> {}", job.short(), worth(&job, told).short());
            }
        }
    }

    fn lines_of(&self, op: u8) -> usize {
        self.lines.get(&op).copied().unwrap_or(0)
    }
}

pub fn write(options: &Options) -> bool {
    let mut chance = Chance(options.number("seed", 1));
    let mut list = List { rust: Rust::new(), sorts: HashSet::new(), jobs: HashSet::new(), lines: HashMap::new(), refused: HashMap::new() };
    great(&mut |job| list.take(&job, false));
    let mut short: HashMap<u8, Vec<Job>> = HashMap::new();
    exhaustive(&mut |job| short.entry(job.op).or_default().push(job));
    for op in COMPARED {
        let jobs = short.entry(op).or_default();
        for i in (1..jobs.len()).rev() {
            jobs.swap(i, chance.below(i as u64 + 1) as usize);
        }
        let of_short = if op == FLAGS { 256 } else { share(op) * 2 / 3 };
        for job in jobs.iter() {
            if list.lines_of(op) < of_short.max(1) {
                list.take(job, op != FLAGS);
            }
        }
        let mut left = 40 * share(op);
        while list.lines_of(op) < share(op) && left > 0 {
            let job = chance_of(&mut chance, op);
            list.take(&job, left > 20 * share(op));
            left -= 1;
        }
    }
    eprintln!("{} lines", list.jobs.len());
    list.jobs.len() >= 20_000
}
