//! The proved library asked: the program `vectors`, through a pipe.
use crate::job::Job;
use std::io::{BufRead, BufReader, Write};
use std::process::{Child, ChildStdin, ChildStdout, Command, Stdio};
use std::thread;

pub struct Library {
    child: Child,
    input: ChildStdin,
    output: BufReader<ChildStdout>,
}

impl Library {
    pub fn program(path: &str) -> Library {
        let mut child = Command::new(path).stdin(Stdio::piped()).stdout(Stdio::piped()).spawn().expect("the program vectors");
        let input = child.stdin.take().unwrap();
        let output = BufReader::with_capacity(1 << 20, child.stdout.take().unwrap());
        Library { child, input, output }
    }

    /// The answer lines to some jobs; meanwhile `work` runs.
    pub fn answers<R>(&mut self, jobs: &[Job], work: impl FnOnce() -> R) -> (Vec<String>, R) {
        let Library { input, output, .. } = self;
        let mut text = String::new();
        jobs.iter().for_each(|job| job.write_line(&mut text));
        thread::scope(|scope| {
            scope.spawn(move || input.write_all(text.as_bytes()).expect("the program takes the jobs"));
            let reader = scope.spawn(move || next_lines(output, jobs.len()));
            let worked = work();
            (reader.join().expect("the program answers"), worked)
        })
    }
}

impl Drop for Library {
    fn drop(&mut self) {
        let _ = self.child.kill();
        let _ = self.child.wait();
    }
}

fn next_lines(from: &mut impl BufRead, n: usize) -> Vec<String> {
    let mut lines = Vec::with_capacity(n);
    for _ in 0..n {
        let mut line = String::new();
        assert!(from.read_line(&mut line).expect("an answer") > 0, "fewer answers than jobs");
        lines.push(line);
    }
    lines
}
