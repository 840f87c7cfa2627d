//! The stack that a call takes: the smallest stack of a thread in which it works. A thread with less ends its process by a signal, so
//! each try is a process of its own, which this program starts from itself.

use std::ffi::{c_int, c_void};
use std::os::unix::process::ExitStatusExt;
use std::process::{Command, Stdio};

use wulgranite::ColoringStrategy::{Degree, IndependentSet, Saturation};
use wulgranite::{Method, Refusal, MAX_FILE};

use crate::graphs::{largest_graphs, small_graph, Graph};
use crate::grouped;
use crate::subjects::{Answer, Call, FewerDays, Port, Subject};

extern "C" {
    /// Runs the body on a thread with so many bytes of stack, and answers 0, or the C library's error.
    fn bench_on_thread(stack: usize, body: extern "C" fn(*mut c_void), data: *mut c_void) -> c_int;
}

/// Sizes are multiples of this, a page.
const STEP: usize = 4096;
/// The smallest stack that the C library gives a thread.
const LEAST: usize = 16_384;
/// Enough for every call.
const MOST: usize = 1 << 20;

#[derive(Clone, Copy)]
enum Task {
    Nothing,
    Of(Call),
    EdgeColor,
    NodeColor,
    Incidence,
    Read,
    Write,
}

const TASKS: [(&str, Task); 17] = [
    ("a thread that does nothing", Task::Nothing),
    ("`misra_gries_edge_color`", Task::Of(Call::MisraGries)),
    ("`misra_gries_add_edge`", Task::Of(Call::AddEdge)),
    ("`greedy_edge_color`", Task::EdgeColor),
    (
        "greedy edges with presets, Degree",
        Task::Of(Call::EdgeColor(Degree)),
    ),
    (
        "greedy edges with presets, Saturation",
        Task::Of(Call::EdgeColor(Saturation)),
    ),
    (
        "greedy edges with presets, IndependentSet",
        Task::Of(Call::EdgeColor(IndependentSet)),
    ),
    ("`greedy_node_color`", Task::NodeColor),
    (
        "greedy nodes with presets, Degree",
        Task::Of(Call::NodeColor(Degree)),
    ),
    (
        "greedy nodes with presets, Saturation",
        Task::Of(Call::NodeColor(Saturation)),
    ),
    (
        "greedy nodes with presets, IndependentSet",
        Task::Of(Call::NodeColor(IndependentSet)),
    ),
    ("`two_color`", Task::Of(Call::TwoColor)),
    ("`line_graph`", Task::Of(Call::LineGraph)),
    ("`incidence`", Task::Incidence),
    ("`fewer_days`", Task::Of(Call::FewerDays)),
    ("`read_graph_file`", Task::Read),
    ("`write_graph_file`", Task::Write),
];

/// The calls that the other measurements leave out.
struct Other<'a> {
    graph: &'a Graph,
    task: Task,
    numbers: Vec<u16>,
    /// Entries, or the colours of a house file.
    more: Vec<u16>,
    file: Vec<u8>,
    report: Result<usize, Refusal>,
}

impl<'a> Other<'a> {
    fn new(graph: &'a Graph, task: Task) -> Self {
        let edges = graph.edge_count();
        let (numbers, more) = match task {
            Task::EdgeColor => (edges, 0),
            Task::NodeColor => (graph.n, 0),
            Task::Incidence => (graph.n + 1, 2 * edges),
            Task::Read => (2 * edges, edges),
            Task::Write => (0, edges),
            Task::Nothing | Task::Of(_) => (0, 0),
        };
        let mut other = Other {
            graph,
            task: Task::Write,
            numbers: vec![0; numbers],
            more: vec![0; more],
            file: vec![0; MAX_FILE],
            report: Ok(0),
        };
        // What is read must have been written.
        if let Task::Read = task {
            other.call();
            let length = other.report.expect("a house file");
            other.file.truncate(length);
        }
        Other { task, ..other }
    }
}

impl Subject for Other<'_> {
    fn call(&mut self) {
        let (n, ends) = (self.graph.n, &self.graph.ends[..]);
        let (numbers, more, file) = (
            &mut self.numbers[..],
            &mut self.more[..],
            &mut self.file[..],
        );
        self.report = match self.task {
            Task::EdgeColor => wulgranite::greedy_edge_color(n, ends, numbers),
            Task::NodeColor => wulgranite::greedy_node_color(n, ends, numbers),
            Task::Incidence => wulgranite::incidence(n, ends, numbers, more),
            Task::Read => wulgranite::read_graph_file(file, numbers, more).map(|file| file.edges),
            Task::Write => {
                wulgranite::write_graph_file(n, ends, Some(more), Some(Method::MisraGries), file)
            }
            Task::Nothing | Task::Of(_) => Ok(0),
        };
    }

    fn answer(&self) -> Answer {
        self.report
            .unwrap_or_else(|why| panic!("{}: {why}", self.graph.name));
        let bytes = self.file.iter().map(|&byte| byte.into());
        let numbers = self.numbers.iter().chain(&self.more).copied();
        Some(numbers.chain(bytes).collect())
    }

    fn forget(&mut self) {
        self.numbers.fill(wulgranite::NONE);
        if let Task::Incidence | Task::Read = self.task {
            self.more.fill(wulgranite::NONE);
        }
        if let Task::Write = self.task {
            self.file.fill(0);
        }
    }
}

fn subject<'a>(graph: &'a Graph, task: Task) -> Box<dyn Subject + 'a> {
    match task {
        Task::Of(Call::FewerDays) => Box::new(FewerDays::new(graph, wulgranite::fewer_days)),
        Task::Of(call) => Box::new(Port::new(graph, call)),
        _ => Box::new(Other::new(graph, task)),
    }
}

extern "C" fn call(data: *mut c_void) {
    // SAFETY: `try_all` hands over such a pointer, and waits for the thread.
    let subject = unsafe { &mut *data.cast::<&mut dyn Subject>() };
    subject.call();
}

fn graphs(large: bool) -> Vec<Graph> {
    if large {
        largest_graphs()
    } else {
        vec![small_graph()]
    }
}

/// Calls on a thread with so much stack, for each of the graphs; the answers must be those of the main thread.
pub fn try_all(stack: &str, task: &str, large: bool) {
    let stack = stack.parse().expect("a number of bytes");
    let task = TASKS[task.parse::<usize>().expect("a task's number")].1;
    for graph in graphs(large) {
        let mut subject = subject(&graph, task);
        subject.call();
        let answer = subject.answer();
        subject.forget();
        let mut lent: &mut dyn Subject = &mut *subject;
        let data: *mut &mut dyn Subject = &mut lent;
        // SAFETY: the thread has ended when this returns, and nothing else uses the subject meanwhile.
        let error = unsafe { bench_on_thread(stack, call, data.cast()) };
        assert_eq!(error, 0, "a thread with {stack} bytes");
        assert!(
            subject.answer() == answer,
            "another answer on {}",
            graph.name
        );
    }
}

/// Whether a thread with so much stack suffices.
fn suffices(stack: usize, task: usize, large: bool) -> bool {
    let program = std::env::current_exe().expect("this program's path");
    let size = if large { "large" } else { "small" };
    let status = Command::new(program)
        .args(["try", &stack.to_string(), &task.to_string(), size])
        .stderr(Stdio::null())
        .status()
        .expect("a process");
    assert!(
        status.success() || status.signal().is_some(),
        "{} fails otherwise than by its stack",
        TASKS[task].0
    );
    status.success()
}

/// The smallest stack that suffices, by halving.
fn smallest(task: usize, large: bool) -> usize {
    let (mut fails, mut works) = (LEAST / STEP - 1, MOST / STEP);
    assert!(suffices(MOST, task, large), "{} takes more", TASKS[task].0);
    while works - fails > 1 {
        let middle = (fails + works) / 2;
        if suffices(middle * STEP, task, large) {
            works = middle;
        } else {
            fails = middle;
        }
    }
    works * STEP
}

pub fn print_table() {
    println!("| call | small list | largest graphs |\n|---|---:|---:|");
    for (i, (name, _)) in TASKS.iter().enumerate() {
        let cell = |large| grouped(smallest(i, large) as f64, 0);
        println!("| {name} | {} | {} |", cell(false), cell(true));
    }
}
