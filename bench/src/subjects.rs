//! What is measured: the port, the Rust, the Rust over the heap queue, and Boost. Each goes from the same list of ends to the
//! answer, and hands the answer back in one form, so that they can be compared.

use std::collections::HashSet;
use std::convert::Infallible;
use std::hash::Hash;
use std::hint::black_box;

use petgraph::graph::{EdgeIndex, NodeIndex, UnGraph};
use rustworkx_core::coloring;
use rustworkx_core::dictmap::DictMap;
use rustworkx_core::line_graph::line_graph;
use wulgranite::{ColoringStrategy, Refusal};

use crate::graphs::Graph;

#[derive(Clone, Copy, PartialEq)]
pub enum Call {
    MisraGries,
    /// The last edge, after the colours that the others have without it.
    AddEdge,
    EdgeColor(ColoringStrategy),
    NodeColor(ColoringStrategy),
    TwoColor,
    LineGraph,
    /// The edges' colours by Degree, beside those by Saturation.
    FewerDays,
}

/// The colours by number, or the line list; nothing where the call refuses.
pub type Answer = Option<Vec<u16>>;

pub trait Subject {
    /// What is timed.
    fn call(&mut self);
    /// The last call's answer.
    fn answer(&self) -> Answer;
    /// Forgets the last answer, so that a stale one can't pass for a new one.
    fn forget(&mut self);
}

pub struct Port<'a> {
    graph: &'a Graph,
    call: Call,
    /// The stored colours, for a late match.
    presets: Vec<u16>,
    numbers: Vec<u16>,
    bytes: Vec<u8>,
    report: Result<usize, Refusal>,
}

impl<'a> Port<'a> {
    pub fn new(graph: &'a Graph, call: Call) -> Self {
        let length = match call {
            Call::MisraGries | Call::AddEdge | Call::EdgeColor(_) => graph.edge_count(),
            Call::NodeColor(_) | Call::TwoColor => graph.n,
            Call::LineGraph => 2 * graph.pair_count(),
            Call::FewerDays => unreachable!("FewerDays has this call"),
        };
        Port {
            graph,
            call,
            presets: match call {
                Call::AddEdge => colors_without_last(graph),
                _ => graph.presets(length),
            },
            numbers: vec![wulgranite::NONE; length],
            bytes: vec![u8::MAX; length],
            report: Ok(0),
        }
    }
}

/// The port's colours of all edges but the last, where there is one.
fn colors_without_last(graph: &Graph) -> Vec<u16> {
    let count = graph.edge_count().saturating_sub(1);
    let mut colors = vec![wulgranite::NONE; count];
    wulgranite::misra_gries_edge_color(graph.n, &graph.ends[..2 * count], &mut colors)
        .unwrap_or_else(|why| panic!("{}: {why}", graph.name));
    colors
}

impl Subject for Port<'_> {
    fn call(&mut self) {
        let (n, ends) = (self.graph.n, black_box(&self.graph.ends[..]));
        let (presets, numbers) = (&self.presets, &mut self.numbers[..]);
        self.report = match self.call {
            Call::MisraGries => wulgranite::misra_gries_edge_color(n, ends, numbers),
            Call::AddEdge => wulgranite::misra_gries_add_edge(n, ends, presets, numbers),
            Call::EdgeColor(strategy) => wulgranite::greedy_edge_color_with_coloring_strategy(
                n, ends, presets, strategy, numbers,
            ),
            Call::NodeColor(strategy) => wulgranite::greedy_node_color_with_coloring_strategy(
                n, ends, presets, strategy, numbers,
            ),
            Call::TwoColor => wulgranite::two_color(n, ends, &mut self.bytes),
            Call::LineGraph => wulgranite::line_graph(n, ends, numbers),
            Call::FewerDays => unreachable!("FewerDays has this call"),
        };
    }

    fn answer(&self) -> Answer {
        match self.report {
            Err(Refusal::OddClosedWalk) if self.call == Call::TwoColor => None,
            Err(why) => panic!("{}: {why}", self.graph.name),
            Ok(_) if self.call == Call::TwoColor => {
                Some(self.bytes.iter().map(|&b| b.into()).collect())
            }
            Ok(_) => Some(self.numbers.clone()),
        }
    }

    fn forget(&mut self) {
        self.numbers.fill(wulgranite::NONE);
        self.bytes.fill(u8::MAX);
        self.report = Ok(0);
    }
}

/// An answer as the Rust gives it.
enum Published {
    Edges(DictMap<EdgeIndex, usize>),
    Nodes(DictMap<NodeIndex, usize>),
    Sides(Option<DictMap<NodeIndex, u8>>),
    Lines(UnGraph<(), ()>),
}

pub struct Rust<'a> {
    graph: &'a Graph,
    call: Call,
    presets: Vec<u16>,
    heap: bool,
    last: Option<Published>,
}

impl<'a> Rust<'a> {
    pub fn new(graph: &'a Graph, call: Call) -> Self {
        let count = match call {
            Call::NodeColor(_) => graph.n,
            _ => graph.edge_count(),
        };
        Rust {
            graph,
            call,
            presets: graph.presets(count),
            heap: false,
            last: None,
        }
    }

    /// Saturation over the heap queue.
    pub fn with_heap(graph: &'a Graph, call: Call) -> Self {
        Rust {
            heap: true,
            ..Rust::new(graph, call)
        }
    }
}

/// With the capacity known, which is the least that it can cost.
fn petgraph(n: usize, ends: &[u16]) -> UnGraph<(), ()> {
    let mut graph = UnGraph::with_capacity(n, ends.len() / 2);
    for _ in 0..n {
        graph.add_node(());
    }
    for e in ends.chunks_exact(2) {
        graph.add_edge(NodeIndex::new(e[0].into()), NodeIndex::new(e[1].into()), ());
    }
    graph
}

fn strategy(of: ColoringStrategy) -> coloring::ColoringStrategy {
    match of {
        ColoringStrategy::Degree => coloring::ColoringStrategy::Degree,
        ColoringStrategy::Saturation => coloring::ColoringStrategy::Saturation,
        ColoringStrategy::IndependentSet => coloring::ColoringStrategy::IndependentSet,
    }
}

/// An edge's or a node's preset, as the Rust asks for it.
fn preset(presets: &[u16], number: usize) -> Result<Option<usize>, Infallible> {
    match presets[number] {
        wulgranite::NONE => Ok(None),
        day => Ok(Some(day.into())),
    }
}

fn published(graph: &UnGraph<(), ()>, call: Call, presets: &[u16]) -> Published {
    let edge = |edge: EdgeIndex| preset(presets, edge.index());
    let node = |node: NodeIndex| preset(presets, node.index());
    match call {
        Call::MisraGries => Published::Edges(coloring::misra_gries_edge_color(graph)),
        Call::AddEdge | Call::FewerDays => unreachable!("the Rust has no such call"),
        Call::EdgeColor(by) => Published::Edges(
            coloring::greedy_edge_color_with_coloring_strategy(graph, edge, strategy(by)).unwrap(),
        ),
        Call::NodeColor(by) => Published::Nodes(
            coloring::greedy_node_color_with_coloring_strategy(graph, node, strategy(by)).unwrap(),
        ),
        Call::TwoColor => Published::Sides(coloring::two_color(graph)),
        Call::LineGraph => Published::Lines(line_graph(graph, || (), || ()).0),
    }
}

fn published_over_heap(graph: &UnGraph<(), ()>, call: Call, presets: &[u16]) -> Published {
    use heap_oracle::coloring::{self, ColoringStrategy::Saturation};
    let edge = |edge: EdgeIndex| preset(presets, edge.index());
    let node = |node: NodeIndex| preset(presets, node.index());
    match call {
        Call::EdgeColor(_) => Published::Edges(
            coloring::greedy_edge_color_with_coloring_strategy(graph, edge, Saturation).unwrap(),
        ),
        Call::NodeColor(_) => Published::Nodes(
            coloring::greedy_node_color_with_coloring_strategy(graph, node, Saturation).unwrap(),
        ),
        _ => unreachable!("only Saturation has a queue"),
    }
}

/// The colours by number; the map has each number once.
fn by_number<K: Copy + Eq + Hash, C: Copy + TryInto<u16>>(
    colors: &DictMap<K, C>,
    key: fn(usize) -> K,
) -> Vec<u16> {
    let number = |i| colors[&key(i)].try_into().ok().expect("a small colour");
    (0..colors.len()).map(number).collect()
}

impl Subject for Rust<'_> {
    fn call(&mut self) {
        let graph = petgraph(self.graph.n, black_box(&self.graph.ends));
        self.last = Some(if self.heap {
            published_over_heap(&graph, self.call, &self.presets)
        } else {
            published(&graph, self.call, &self.presets)
        });
    }

    fn answer(&self) -> Answer {
        match self.last.as_ref().expect("a call before its answer") {
            Published::Edges(colors) => Some(by_number(colors, EdgeIndex::new)),
            Published::Nodes(colors) => Some(by_number(colors, NodeIndex::new)),
            Published::Sides(colors) => colors.as_ref().map(|c| by_number(c, NodeIndex::new)),
            Published::Lines(lines) => {
                let pair = |edge: &petgraph::graph::Edge<()>| {
                    [edge.source().index() as u16, edge.target().index() as u16]
                };
                Some(lines.raw_edges().iter().flat_map(pair).collect())
            }
        }
    }

    fn forget(&mut self) {
        self.last = None;
    }
}

/// The first numbers of one of two lists.
type Choice = for<'b> fn(&'b [u16], &'b [u16], usize) -> &'b [u16];

/// The list with fewer days of two, both of them made beforehand.
pub struct FewerDays {
    lists: [Vec<u16>; 2],
    choice: Choice,
    /// Which list, and how many numbers.
    last: Option<(usize, usize)>,
}

impl FewerDays {
    pub fn new(graph: &Graph, choice: Choice) -> Self {
        let by = |strategy| {
            let mut subject = Port::new(graph, Call::EdgeColor(strategy));
            subject.call();
            subject.answer().unwrap_or_default()
        };
        FewerDays {
            lists: [
                by(ColoringStrategy::Degree),
                by(ColoringStrategy::Saturation),
            ],
            choice,
            last: None,
        }
    }

    /// The choice as one would write it without the port.
    pub fn by_hash_sets<'b>(first: &'b [u16], second: &'b [u16], m: usize) -> &'b [u16] {
        let (Some(one), Some(two)) = (first.get(..m), second.get(..m)) else {
            return &first[..0];
        };
        let days = |list: &[u16]| list.iter().collect::<HashSet<_>>().len();
        let unplayed = |list: &[u16]| list.contains(&wulgranite::NONE);
        if !unplayed(two) && (unplayed(one) || days(two) < days(one)) {
            two
        } else {
            one
        }
    }
}

impl Subject for FewerDays {
    fn call(&mut self) {
        let [first, second] = black_box(&self.lists);
        let part = (self.choice)(first, second, first.len());
        let list = usize::from(part.as_ptr() == second.as_ptr());
        self.last = Some((list, part.len()));
    }

    fn answer(&self) -> Answer {
        let (list, length) = self.last.expect("a call before its answer");
        Some(self.lists[list][..length].to_vec())
    }

    fn forget(&mut self) {
        self.last = None;
    }
}

extern "C" {
    fn bench_boost_edge_color(n: usize, ends: *const u16, edges: usize, colors: *mut u16);
}

pub struct Boost<'a> {
    graph: &'a Graph,
    colors: Vec<u16>,
}

impl<'a> Boost<'a> {
    pub fn new(graph: &'a Graph) -> Self {
        Boost {
            graph,
            colors: vec![wulgranite::NONE; graph.edge_count()],
        }
    }
}

impl Subject for Boost<'_> {
    fn call(&mut self) {
        let ends = black_box(&self.graph.ends);
        // SAFETY: the graph has as many ends as are read and each is below n; a colour is written for each edge.
        unsafe {
            bench_boost_edge_color(
                self.graph.n,
                ends.as_ptr(),
                self.graph.edge_count(),
                self.colors.as_mut_ptr(),
            );
        }
    }

    fn answer(&self) -> Answer {
        Some(self.colors.clone())
    }

    fn forget(&mut self) {
        self.colors.fill(wulgranite::NONE);
    }
}
