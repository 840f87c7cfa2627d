//! The rows: a call, a graph, and the subjects that are measured on it.

use std::collections::HashSet;

use wulgranite::ColoringStrategy::{Degree, IndependentSet, Saturation};
use wulgranite::NONE;

use crate::graphs::{double_edges, simple_graphs, Graph};
use crate::subjects::{Answer, Boost, Call, FewerDays, Port, Rust, Subject};

/// How an answer is held against the port's.
#[derive(Clone, Copy, PartialEq)]
pub enum Check {
    Equal,
    /// Boost chooses otherwise; it must colour properly with as many colours as the theorem allows.
    Proper,
    /// IndependentSet in the Rust takes presets of the same day in no fixed order; it must colour properly around them.
    AroundPresets,
}

pub struct Entrant<'a> {
    pub name: &'static str,
    pub check: Check,
    pub subject: Box<dyn Subject + 'a>,
}

impl<'a> Entrant<'a> {
    fn new(name: &'static str, check: Check, subject: impl Subject + 'a) -> Self {
        Entrant {
            name,
            check,
            subject: Box::new(subject),
        }
    }
}

/// The calls, each with the title of its table.
pub const CALLS: [(&str, Call); 11] = [
    ("misra_gries_edge_color", Call::MisraGries),
    ("misra_gries_add_edge", Call::AddEdge),
    ("greedy edges, Degree", Call::EdgeColor(Degree)),
    ("greedy edges, Saturation", Call::EdgeColor(Saturation)),
    (
        "greedy edges, IndependentSet",
        Call::EdgeColor(IndependentSet),
    ),
    ("greedy nodes, Degree", Call::NodeColor(Degree)),
    ("greedy nodes, Saturation", Call::NodeColor(Saturation)),
    (
        "greedy nodes, IndependentSet",
        Call::NodeColor(IndependentSet),
    ),
    ("two_color", Call::TwoColor),
    ("line_graph", Call::LineGraph),
    ("fewer_days", Call::FewerDays),
];

/// The graphs of a call's table.
pub fn graphs(call: Call) -> Vec<Graph> {
    let presets = matches!(
        call,
        Call::EdgeColor(_) | Call::NodeColor(_) | Call::FewerDays
    );
    let mut graphs = simple_graphs(presets);
    if let Call::EdgeColor(_) = call {
        graphs.push(double_edges());
    }
    graphs
}

/// How the Rust's answer is held against the port's. Only edges are so many that days are preset twice.
fn check(graph: &Graph, call: Call) -> Check {
    let mut seen = HashSet::new();
    let mut presets = graph.presets(graph.edge_count()).into_iter();
    let twice = presets.any(|day| day != NONE && !seen.insert(day));
    match call {
        Call::EdgeColor(IndependentSet) if twice => Check::AroundPresets,
        _ => Check::Equal,
    }
}

/// Who is measured on a row, the port first.
pub fn entrants(graph: &Graph, call: Call) -> Vec<Entrant<'_>> {
    let saturation = matches!(
        call,
        Call::EdgeColor(Saturation) | Call::NodeColor(Saturation)
    );
    if call == Call::FewerDays {
        let port = FewerDays::new(graph, wulgranite::fewer_days);
        let sets = FewerDays::new(graph, FewerDays::by_hash_sets);
        return vec![
            Entrant::new("port", Check::Equal, port),
            Entrant::new("Rust, hash sets", Check::Equal, sets),
        ];
    }
    let check = check(graph, call);
    let mut entrants = vec![Entrant::new("port", check, Port::new(graph, call))];
    if call == Call::AddEdge {
        // The whole list afresh, which must come to the same.
        let port = Port::new(graph, Call::MisraGries);
        let rust = Rust::new(graph, Call::MisraGries);
        entrants.push(Entrant::new("port, whole run", Check::Equal, port));
        entrants.push(Entrant::new("Rust, whole run", Check::Equal, rust));
        return entrants;
    }
    let rust = if saturation { "Rust, scan" } else { "Rust" };
    entrants.push(Entrant::new(rust, check, Rust::new(graph, call)));
    if saturation {
        let rust = Rust::with_heap(graph, call);
        entrants.push(Entrant::new("Rust, heap", Check::Equal, rust));
    }
    if call == Call::MisraGries {
        let boost = Boost::new(graph);
        entrants.push(Entrant::new("Boost", Check::Proper, boost));
    }
    entrants
}

/// Whether edges that share an end differ, with at most one colour more than the most edges at a node.
fn proper(graph: &Graph, colors: &[u16]) -> bool {
    let most = graph.degrees().into_iter().max().unwrap_or(0);
    let mut seen = HashSet::new();
    colors.iter().zip(graph.ends.chunks(2)).all(|(&color, e)| {
        usize::from(color) <= most && seen.insert((e[0], color)) && seen.insert((e[1], color))
    })
}

/// Whether presets stay, and edges that share an end differ, two preset ones apart.
fn around_presets(graph: &Graph, colors: &[u16]) -> bool {
    let presets = graph.presets(graph.edge_count());
    let edges = || graph.ends.chunks(2).zip(colors).zip(&presets);
    // Presets first, so that no other edge passes beside them.
    let mut seen = HashSet::new();
    for ((e, &color), _) in edges().filter(|(_, &preset)| preset != NONE) {
        seen.extend([(e[0], color), (e[1], color)]);
    }
    edges().all(|((e, &color), &preset)| match preset {
        NONE => seen.insert((e[0], color)) && seen.insert((e[1], color)),
        _ => color == preset,
    })
}

/// Ends the program where an answer is not what it must be.
pub fn verify(graph: &Graph, port: &Answer, entrant: &Entrant) {
    let answer = entrant.subject.answer();
    let holds = match entrant.check {
        Check::Equal => answer == *port,
        Check::Proper => proper(graph, &answer.unwrap_or_default()),
        Check::AroundPresets => around_presets(graph, &answer.unwrap_or_default()),
    };
    assert!(holds, "{} fails on {}", entrant.name, graph.name);
}
