//! The comparison inside the domain: every difference is an error.
use crate::rust::{Reply, Rust};
use crate::Options;
use jobs::asked::Library;
use jobs::domain;
use jobs::job::*;
use jobs::make::{by_chance, exhaustive, Chance};
use std::time::Instant;

const BATCH: usize = 8192;

#[derive(Clone, Copy, Default)]
struct Row {
    jobs: u64,
    accepted: u64,
    refused: u64,
    differ: u64,
}

struct Run {
    library: Library,
    rust: Rust,
    waiting: Vec<Job>,
    rows: [Row; 32],
    refusals: [u64; 12],
    twenty: u64,
    most: u64,
    shown: u64,
    started: Instant,
    said: u64,
}

/// True where nothing differs.
pub fn run(options: &Options) -> bool {
    let (seed, jobs) = (options.number("seed", 1), options.number("jobs", 2_000_000));
    let mut run = Run {
        library: options.library(),
        rust: Rust::new(),
        waiting: Vec::new(),
        rows: [Row::default(); 32],
        refusals: [0; 12],
        twenty: 0,
        most: options.number("most", u64::MAX),
        shown: 0,
        started: Instant::now(),
        said: 0,
    };
    println!("seed {seed}, {jobs} jobs");
    let mut chance = Chance(seed);
    (0..2 * BATCH).for_each(|_| run.take(by_chance(&mut chance))); // a few first: a difference shows at once
    run.flush();
    let before = run.total().jobs;
    exhaustive(&mut |job| run.take(job));
    run.flush();
    println!("every short input: {} jobs", run.total().jobs - before);
    while run.total().jobs < jobs && run.total().differ < run.most {
        let left = (jobs - run.total().jobs).min(BATCH as u64);
        (0..left).for_each(|_| run.take(by_chance(&mut chance)));
        run.flush();
    }
    run.table();
    run.total().differ == 0
}

impl Run {
    fn take(&mut self, job: Job) {
        if self.total().differ < self.most && domain::inside(&job) {
            self.waiting.push(job);
            if self.waiting.len() == BATCH {
                self.flush();
            }
        }
    }

    fn total(&self) -> Row {
        self.rows.iter().fold(Row::default(), |a, b| Row {
            jobs: a.jobs + b.jobs,
            accepted: a.accepted + b.accepted,
            refused: a.refused + b.refused,
            differ: a.differ + b.differ,
        })
    }

    /// Asks both sides what waits, and compares.
    fn flush(&mut self) {
        let jobs = std::mem::take(&mut self.waiting);
        let rust = &mut self.rust;
        let (lines, replies) = self.library.answers(&jobs, || jobs.iter().map(|job| rust.ask(job)).collect::<Vec<_>>());
        for ((job, line), reply) in jobs.iter().zip(&lines).zip(replies) {
            self.compare(job, line, reply);
        }
        let passed = self.started.elapsed().as_secs();
        if passed >= self.said + 5 {
            self.said = passed;
            eprintln!("{} jobs, {} differ, {passed} s", self.total().jobs, self.total().differ);
        }
    }

    fn compare(&mut self, job: &Job, line: &str, reply: Reply) {
        let row = &mut self.rows[job.op as usize];
        let differing = match reply {
            Reply::Unasked => return,
            Reply::Other(said) if said.starts_with("bytes: ") && line.starts_with("14 ") => {
                self.twenty += 1; // 20, and there no answer: outside the domain
                return;
            }
            Reply::Other(said) => vec![format!("the Rust: {said}")],
            Reply::Answer(told) => {
                match told.get("status") {
                    0 => row.accepted += 1,
                    number => {
                        row.refused += 1;
                        self.refusals[number as usize] += 1;
                    }
                }
                told.differing(line)
            }
        };
        row.jobs += 1;
        if !differing.is_empty() {
            row.differ += 1;
            self.shown += 1;
            if self.shown <= 20 {
                println!("DIFFERS {}: {} [{}]", NAMES[job.op as usize], differing.join("; "), job.short());
            }
        }
    }

    fn table(&self) {
        println!("{:<26} {:>9} {:>9} {:>9} {:>7}", "function", "jobs", "accepted", "refused", "differ");
        for (name, row) in NAMES.iter().zip(&self.rows).filter(|(_, row)| row.jobs > 0) {
            println!("{name:<26} {:>9} {:>9} {:>9} {:>7}", row.jobs, row.accepted, row.refused, row.differ);
        }
        let all = self.total();
        println!("{:<26} {:>9} {:>9} {:>9} {:>7}", "all", all.jobs, all.accepted, all.refused, all.differ);
        let met: Vec<String> = (1..12).map(|number| format!("{number}: {}", self.refusals[number])).collect();
        println!("refusals met  {}", met.join(", "));
        println!("left out for 20: {}; time {} s", self.twenty, self.started.elapsed().as_secs());
    }
}
