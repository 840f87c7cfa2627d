//! Measures the port beside the Rust and Boost, and prints tables in Markdown. README.md says how to read them.
//!
//!     bench time TEXT            a line with the time by the clock for each measured call
//!     bench times FOLDER TEXT    the tables of the lines in the folder, one file for each program
//!     bench dump TEXT            one dump for each measured call, under callgrind only
//!     bench counts FOLDER TEXT   the tables of the dumps in the folder
//!     bench stack                the table of the smallest stacks
//!     bench try BYTES CALL SIZE  a call on a thread with such a stack, which must suffice
//!
//! Only the rows are measured in whose table's title or graph's name the text stands.

mod clock;
mod count;
mod graphs;
mod rows;
mod stack;
mod subjects;

use std::path::Path;

use graphs::Graph;
use rows::{entrants, Entrant, CALLS};
use subjects::Call;

/// Beyond this the Rust, which stores the line graph, takes minutes under callgrind, and only the port is counted.
const MOST_PAIRS_COUNTED: usize = 4_000_000;

/// The number with its thousands apart.
fn grouped(number: f64, digits: usize) -> String {
    let text = format!("{number:.digits$}");
    let whole = text.find('.').unwrap_or(text.len());
    let mut grouped = String::new();
    for (i, digit) in text.char_indices() {
        if i > 0 && i < whole && (whole - i) % 3 == 0 {
            grouped.push(',');
        }
        grouped.push(digit);
    }
    grouped
}

/// One entrant's measure; nothing where it was not taken.
type Measure = Option<f64>;

fn header(title: &str, entrants: &[Entrant], unit: &str, notes: &str) {
    let mut columns = vec!["graph".to_string(), "edges".to_string()];
    columns.extend(entrants.iter().map(|e| format!("{}{unit}", e.name)));
    columns.extend(entrants[1..].iter().map(|e| format!("{} / port", e.name)));
    let mut rule = "---|---:|".to_string() + &"---:|".repeat(columns.len() - 2);
    if !notes.is_empty() {
        columns.push(notes.to_string());
        rule.push_str("---|");
    }
    println!("\n### {title}\n\n| {} |\n|{rule}", columns.join(" | "));
}

/// A row: the measures, then those of the others over the port's.
fn row(graph: &Graph, measures: &[Measure], digits: usize, note: Option<String>) {
    let mut cells = vec![graph.name.clone(), grouped(graph.edge_count() as f64, 0)];
    let show = |number: Measure, digits| number.map_or("-".to_string(), |x| grouped(x, digits));
    cells.extend(measures.iter().map(|&measure| show(measure, digits)));
    let ratio = |measure: Measure| Some(measure? / measures[0]?);
    cells.extend(measures[1..].iter().map(|&m| show(ratio(m), 2)));
    cells.extend(note);
    println!("| {} |", cells.join(" | "));
}

/// The calls with their titles and graphs, as far as the text stands in either.
fn tables(text: &str) -> Vec<(&'static str, Call, Vec<Graph>)> {
    let table = |(title, call): (&'static str, Call)| {
        let mut graphs = rows::graphs(call);
        graphs.retain(|graph| title.contains(text) || graph.name.contains(text));
        (title, call, graphs)
    };
    CALLS.into_iter().map(table).collect()
}

fn time_all(text: &str) {
    for (title, call, graphs) in tables(text) {
        for graph in graphs {
            clock::print(title, &graph, &mut entrants(&graph, call));
        }
    }
}

fn time_tables(folder: &Path, text: &str) {
    let means = clock::read_means(folder);
    for (title, call, graphs) in tables(text) {
        for (i, graph) in graphs.iter().enumerate() {
            let entrants = entrants(graph, call);
            if i == 0 {
                header(title, &entrants, ", µs", "");
            }
            let mean = |e: &Entrant| means.get(&count::label(title, graph, e.name)).copied();
            row(
                graph,
                &entrants.iter().map(mean).collect::<Vec<Measure>>(),
                2,
                None,
            );
        }
    }
}

fn dump_all(text: &str) {
    for (title, call, graphs) in tables(text) {
        for graph in graphs {
            let mut entrants = entrants(&graph, call);
            if graph.pair_count() > MOST_PAIRS_COUNTED {
                entrants.truncate(1);
            }
            count::dump(title, &graph, &mut entrants);
        }
    }
}

fn count_tables(folder: &Path, text: &str) {
    let dumps = count::read_dumps(folder);
    for (title, call, graphs) in tables(text) {
        for (i, graph) in graphs.iter().enumerate() {
            let entrants = entrants(graph, call);
            if i == 0 {
                header(title, &entrants, "", "the port's are in");
            }
            let dump = |e: &Entrant| dumps.get(&count::label(title, graph, e.name));
            let total = |e: &Entrant| dump(e).map(|dump| dump.total() as f64);
            let counts: Vec<Measure> = entrants.iter().map(total).collect();
            row(graph, &counts, 0, dump(&entrants[0]).map(|d| d.shares()));
        }
    }
}

/// Runs on the one thread of a pool: the Rust then sorts on that thread too, and the counts are of one thread.
fn on_one_thread(run: impl FnOnce() + Send) {
    rayon::ThreadPoolBuilder::new()
        .num_threads(1)
        // As much as a main thread has, for the port's arrays and Boost's recursion.
        .stack_size(8 << 20)
        .build()
        .expect("a thread")
        .install(run);
}

fn main() {
    let arguments: Vec<String> = std::env::args().skip(1).collect();
    match arguments.iter().map(String::as_str).collect::<Vec<_>>()[..] {
        ["time", text] => time_all(text),
        ["times", folder, text] => time_tables(Path::new(folder), text),
        ["dump", text] => on_one_thread(|| dump_all(text)),
        ["counts", folder, text] => count_tables(Path::new(folder), text),
        ["stack"] => stack::print_table(),
        ["try", bytes, call, size] => stack::try_all(bytes, call, size == "large"),
        _ => panic!("bench time TEXT | times FOLDER TEXT | dump TEXT | counts FOLDER TEXT | stack"),
    }
}
