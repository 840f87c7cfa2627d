//! Instruction counts by callgrind: one dump for each entrant of each row, labelled, and the tables read from the dumps.

use std::collections::HashMap;
use std::ffi::{c_char, CString};
use std::fs;
use std::path::Path;

use crate::graphs::Graph;
use crate::rows::{verify, Entrant};

extern "C" {
    fn bench_count_from_here();
    fn bench_count_to_here(label: *const c_char);
}

/// What a dump or a time is of.
pub fn label(title: &str, graph: &Graph, entrant: &str) -> String {
    format!("{title} | {} | {entrant}", graph.name)
}

/// Counts one call of each entrant, a call before it for what is set up once.
pub fn dump(title: &str, graph: &Graph, entrants: &mut [Entrant]) {
    entrants[0].subject.call();
    let port = entrants[0].subject.answer();
    for entrant in entrants {
        entrant.subject.call();
        let label = CString::new(label(title, graph, entrant.name)).unwrap();
        // SAFETY: outside of callgrind the requests do nothing, and the label ends with a nought.
        unsafe { bench_count_from_here() };
        entrant.subject.call();
        unsafe { bench_count_to_here(label.as_ptr()) };
        verify(graph, &port, entrant);
    }
}

/// What a dump holds: the instructions of each function, those of its callees not counted in.
#[derive(Default)]
pub struct Dump {
    functions: HashMap<String, u64>,
}

impl Dump {
    pub fn total(&self) -> u64 {
        self.functions.values().sum()
    }

    /// The functions with a tenth of the instructions or more, the greatest first.
    pub fn shares(&self) -> String {
        let mut functions: Vec<_> = self.functions.iter().collect();
        functions.sort_by(|a, b| b.1.cmp(a.1).then(a.0.cmp(b.0)));
        let total = self.total();
        functions
            .into_iter()
            .filter(|(_, &count)| 10 * count >= total)
            .map(|(name, &count)| format!("{name} {} %", (100 * count + total / 2) / total))
            .collect::<Vec<_>>()
            .join(", ")
    }
}

/// Reads the instructions from the text of a dump; the valgrind manual has the format.
fn read_dump(text: &str) -> Dump {
    let mut names: HashMap<&str, &str> = HashMap::new();
    let mut dump = Dump::default();
    let mut function = "";
    let mut of_callee = false;
    for line in text.lines() {
        if let Some(name) = line.strip_prefix("fn=") {
            // A name stands with its number at first, later the number stands alone.
            let (number, name) = name.split_once(' ').unwrap_or((name, ""));
            function = *names.entry(number).or_insert(name);
        } else if let Some(callee) = line.strip_prefix("cfn=") {
            let (number, name) = callee.split_once(' ').unwrap_or((callee, ""));
            names.entry(number).or_insert(name);
        } else if line.starts_with("calls=") {
            of_callee = true;
        } else if line.starts_with(|c: char| c.is_ascii_digit() || "+-*".contains(c)) {
            let count = line.rsplit(' ').next().and_then(|c| c.parse::<u64>().ok());
            if !of_callee {
                *dump.functions.entry(function.to_string()).or_default() += count.unwrap_or(0);
            }
            of_callee = false;
        }
    }
    dump
}

/// All dumps of a folder, by label.
pub fn read_dumps(folder: &Path) -> HashMap<String, Dump> {
    let files = fs::read_dir(folder).expect("the folder of the dumps");
    let mut dumps = HashMap::new();
    for file in files {
        let text = fs::read_to_string(file.expect("a dump").path()).expect("a dump's text");
        let label = text
            .lines()
            .find_map(|line| line.strip_prefix("desc: Trigger: Client Request: "));
        // The last file, written at the end of the program, has no label and no calls.
        if let Some(label) = label {
            dumps.insert(label.to_string(), read_dump(&text));
        }
    }
    dumps
}
