//! Times by the clock: medians of samples that are taken in turn, so that a change of the machine's load meets all alike. A program
//! prints them for one place of the port in the program, and the tables are read from what several programs printed.

use std::collections::HashMap;
use std::fs;
use std::path::Path;
use std::time::Instant;

use crate::count::label;
use crate::graphs::Graph;
use crate::rows::{verify, Entrant};
use crate::subjects::Subject;

/// A sample repeats a short call until it lasts about this long, in seconds.
const SAMPLE: f64 = 0.005;
const SAMPLES: usize = 11;

/// Seconds for each of a number of calls.
fn seconds(subject: &mut dyn Subject, times: usize) -> f64 {
    let start = Instant::now();
    for _ in 0..times {
        subject.call();
    }
    start.elapsed().as_secs_f64() / times as f64
}

/// Fewer samples of what lasts long.
fn sample_count(call: f64) -> usize {
    if call < 1.0 {
        SAMPLES
    } else {
        1
    }
}

struct Plan {
    times: usize,
    samples: usize,
    taken: Vec<f64>,
}

impl Plan {
    /// The first call warms up, the second says how long one takes.
    fn new(subject: &mut dyn Subject) -> Self {
        let first = seconds(subject, 1);
        // What is measured once is not run twice before.
        let call = if first < 1.0 {
            seconds(subject, 1)
        } else {
            first
        };
        Plan {
            times: ((SAMPLE / call) as usize).clamp(1, 10_000),
            samples: sample_count(call),
            taken: Vec::new(),
        }
    }

    fn median(&mut self) -> f64 {
        self.taken.sort_by(f64::total_cmp);
        self.taken[self.taken.len() / 2]
    }
}

/// Prints the median of each entrant in microseconds; each answer is verified after each sample.
pub fn print(title: &str, graph: &Graph, entrants: &mut [Entrant]) {
    let mut plans: Vec<Plan> = Vec::new();
    for entrant in entrants.iter_mut() {
        plans.push(Plan::new(&mut *entrant.subject));
    }
    let port = entrants[0].subject.answer();
    for round in 0..SAMPLES {
        for (entrant, plan) in entrants.iter_mut().zip(&mut plans) {
            if round < plan.samples {
                entrant.subject.forget();
                plan.taken.push(seconds(&mut *entrant.subject, plan.times));
                verify(graph, &port, entrant);
            }
        }
    }
    for (entrant, plan) in entrants.iter().zip(&mut plans) {
        let median = plan.median() * 1e6;
        println!("{}\t{median}", label(title, graph, entrant.name));
    }
}

/// The means of what the programs printed, a file of the folder each, by label.
pub fn read_means(folder: &Path) -> HashMap<String, f64> {
    let mut taken: HashMap<String, Vec<f64>> = HashMap::new();
    let mut programs = 0;
    for file in fs::read_dir(folder).expect("the folder of the times") {
        programs += 1;
        let text = fs::read_to_string(file.expect("a file").path()).expect("a file's text");
        for line in text.lines() {
            let (label, median) = line.split_once('\t').expect("a label and a time");
            let median = median.parse().expect("a number");
            taken.entry(label.to_string()).or_default().push(median);
        }
    }
    let mean = |times: Vec<f64>| {
        assert_eq!(times.len(), programs, "a time from each program");
        times.iter().sum::<f64>() / times.len() as f64
    };
    taken
        .into_iter()
        .map(|(label, times)| (label, mean(times)))
        .collect()
}
