//! Compares the text of aml 0.16.4 with the proved library, or writes what the text answers.
//!
//!     driver run --vectors PROGRAM [--seed N] [--jobs N] [--most N]    inside the domain; stops after so many differences
//!     driver departures --vectors PROGRAM                              outside it: each way to differ, with its smallest input
//!     driver ask < JOBS                                                what the text says to full job lines, in the short form
//!     driver list [--seed N]                                           some 20,000 jobs with the text's answers
mod departures;
mod list;
mod run;
mod rust;

use jobs::asked::Library;
use jobs::job::Job;
use std::collections::HashMap;

/// The words of the command line: `--name value`.
pub struct Options(HashMap<String, String>);

impl Options {
    fn number(&self, name: &str, otherwise: u64) -> u64 {
        self.0.get(name).map_or(otherwise, |text| text.replace(',', "").parse().expect("a number"))
    }

    fn library(&self) -> Library {
        Library::program(self.0.get("vectors").expect("--vectors PROGRAM"))
    }
}

fn main() {
    let usual = std::panic::take_hook();
    std::panic::set_hook(Box::new(move |said| {
        if !rust::is_asked() {
            usual(said);
        }
    }));
    let words: Vec<String> = std::env::args().skip(1).collect();
    let mode = words.first().map_or("", |word| word.as_str());
    let pairs = words.get(1..).unwrap_or_default().chunks(2);
    let options = Options(pairs.map(|pair| (pair[0].trim_start_matches("--").to_string(), pair[1].clone())).collect());
    let well = match mode {
        "run" => run::run(&options),
        "departures" => departures::run(&options),
        "list" => list::write(&options),
        "ask" => ask(),
        _ => panic!("run, departures, list or ask"),
    };
    std::process::exit(if well { 0 } else { 1 });
}

fn ask() -> bool {
    let mut rust = rust::Rust::new();
    for line in std::io::stdin().lines() {
        let job = Job::of_line(&line.expect("a line"));
        match rust.ask(&job) {
            rust::Reply::Answer(told) => println!("{} -> {}", job.short(), told.short()),
            rust::Reply::Other(said) => println!("# {}: {said}", job.short()),
            rust::Reply::Unasked => println!("# {}: cannot be put to it", job.short()),
        }
    }
    true
}
