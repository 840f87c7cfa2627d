//! The Rust's side: the published functions, unchanged, behind 01's checks. Late matches, which it has not, are those of
//! rules.rs.

use std::convert::Infallible;
use std::hash::Hash;

use petgraph::graph::{EdgeIndex, NodeIndex, UnGraph};
use petgraph::visit::EdgeRef;
use rustworkx_core::coloring::{self, ColoringStrategy};
use rustworkx_core::dictmap::DictMap;
use rustworkx_core::line_graph::line_graph;
use rustworkx_core::rules::{self, NONE};

use crate::models;
use crate::question::{
    Call, Outcome, Question, DEGREE, INDEPENDENT_SET, REPORT_BEFORE, SATURATION,
};

/// A graph as both sides get it; one that 01's graph checks refuse has no petgraph.
pub struct Graph {
    pub n: usize,
    pub ends: Vec<u16>,
    pub refusal: Option<u8>,
    pub petgraph: UnGraph<(), ()>,
    /// 01's edges of each node.
    edges: Vec<Vec<u16>>,
}

impl Graph {
    pub fn new(n: usize, ends: Vec<u16>) -> Self {
        let refusal = rules::graph_refusal(n as u64, &ends);
        let mut petgraph = UnGraph::default();
        let mut edges = Vec::new();
        if refusal.is_none() {
            for _ in 0..n {
                petgraph.add_node(());
            }
            for e in ends.chunks(2) {
                petgraph.add_edge(NodeIndex::new(e[0].into()), NodeIndex::new(e[1].into()), ());
            }
            edges = rules::edges_of_nodes(n, &ends);
        }
        Graph {
            n,
            ends,
            refusal,
            petgraph,
            edges,
        }
    }

    pub fn m(&self) -> usize {
        self.ends.len() / 2
    }

    pub fn pair_count(&self) -> usize {
        rules::pair_count(&self.edges)
    }

    /// D.
    pub fn greatest_degree(&self) -> usize {
        rules::greatest_degree(&self.edges)
    }

    /// The graph whose nodes are coloured: this one, or its line graph.
    pub fn items(&self, kind: Kind) -> UnGraph<(), ()> {
        match kind {
            Kind::Nodes => self.petgraph.clone(),
            Kind::Edges => self.line_graph(),
        }
    }

    fn line_graph(&self) -> UnGraph<(), ()> {
        let (lines, nodes) = line_graph(&self.petgraph, || (), || ());
        assert!((0..self.m()).all(|k| nodes[&EdgeIndex::new(k)] == NodeIndex::new(k)));
        lines
    }
}

/// What is coloured.
#[derive(Clone, Copy, Debug, PartialEq)]
pub enum Kind {
    Nodes,
    Edges,
}

/// The pairs of nodes that the edges of a graph join, in order.
pub fn pairs(graph: &UnGraph<(), ()>) -> Vec<(usize, usize)> {
    let edges = graph.edge_references();
    edges
        .map(|edge| (edge.source().index(), edge.target().index()))
        .collect()
}

/// Seeds the hashes, and the choice among equal items of Saturation's queue; 0 chooses the lowest.
pub fn set_seed(seed: u64) {
    foldhash::set_seed(seed);
    priority_queue::set_seed(seed);
}

fn preset(presets: &[u16], item: usize) -> Result<Option<usize>, Infallible> {
    let color = presets[item];
    Ok((color != NONE).then_some(color.into()))
}

fn strategy(number: u8) -> ColoringStrategy {
    match number {
        DEGREE => ColoringStrategy::Degree,
        SATURATION => ColoringStrategy::Saturation,
        INDEPENDENT_SET => ColoringStrategy::IndependentSet,
        _ => panic!("no strategy {number}"),
    }
}

/// A map's items with their colours, in the order in which the run put them in.
pub fn node_run(graph: &UnGraph<(), ()>, presets: &[u16], number: u8) -> Vec<(usize, u16)> {
    let of = |node: NodeIndex| preset(presets, node.index());
    let colors =
        coloring::greedy_node_color_with_coloring_strategy(graph, of, strategy(number)).unwrap();
    let items = colors.iter();
    items
        .map(|(node, &color)| (node.index(), color as u16))
        .collect()
}

/// The colours of a map that has every place once.
fn by_place<K: Copy + Eq + Hash>(
    map: &DictMap<K, usize>,
    key: fn(usize) -> K,
    count: usize,
) -> Vec<u16> {
    assert_eq!(map.len(), count);
    let colors = (0..count).map(|place| map[&key(place)]);
    colors
        .map(|color| {
            assert!(color < NONE.into());
            color as u16
        })
        .collect()
}

/// The Rust's own colours of nodes or edges by a strategy.
pub fn colors_by_strategy(graph: &Graph, kind: Kind, presets: &[u16], number: u8) -> Vec<u16> {
    let (g, by) = (&graph.petgraph, strategy(number));
    match kind {
        Kind::Nodes => {
            let of = |node: NodeIndex| preset(presets, node.index());
            let map = coloring::greedy_node_color_with_coloring_strategy(g, of, by).unwrap();
            by_place(&map, NodeIndex::new, graph.n)
        }
        Kind::Edges => {
            let of = |edge: EdgeIndex| preset(presets, edge.index());
            let map = coloring::greedy_edge_color_with_coloring_strategy(g, of, by).unwrap();
            by_place(&map, EdgeIndex::new, graph.m())
        }
    }
}

/// The answer that 01 asks for by a strategy: the Rust's, but where presets share a colour IndependentSet visits them by
/// rising number, which the Rust leaves to a hash set.
fn ruled_colors(graph: &Graph, kind: Kind, presets: &[u16], number: u8) -> Vec<u16> {
    if number != INDEPENDENT_SET || models::sharing(presets).is_empty() {
        return colors_by_strategy(graph, kind, presets, number);
    }
    let items = graph.items(kind);
    let neighbours = models::neighbours(items.node_count(), &pairs(&items));
    models::independent_set(&neighbours, presets, &models::preset_items(presets))
}

/// 01's refusal, and 255 where the header of the port's library has it.
fn refusal(graph: &Graph, question: Question) -> Option<u32> {
    if let Some(number) = graph.refusal {
        return Some(number.into());
    }
    let (n, m) = (graph.n, graph.m());
    let (lent, presets) = (question.lent, question.presets.len());
    let lengths_fit = match question.call {
        Call::Incidence => lent == n + 1 && question.entries == 2 * m,
        Call::TwoColor | Call::NodeColor => lent == n,
        Call::NodeColorPreset | Call::NodeColorStrategy(_) => lent == n && presets == n,
        Call::EdgeColor | Call::MisraGries => lent == m,
        Call::EdgeColorStrategy(_) => lent == m && presets == m,
        Call::LineGraph => true,
        Call::AddEdge => unreachable!("rules.rs has its checks"),
    };
    if !lengths_fit {
        return Some(5);
    }
    match question.call {
        Call::TwoColor if rules::has_odd_closed_walk(n, &graph.ends) => Some(8),
        Call::LineGraph if lent < 2 * graph.pair_count() => Some(9),
        Call::MisraGries if rules::has_loop(&graph.ends) => Some(6),
        Call::MisraGries if rules::has_double_edge(&graph.ends) => Some(7),
        Call::NodeColorStrategy(3..) | Call::EdgeColorStrategy(3..) => Some(255),
        _ => None,
    }
}

/// What was lent, as it was.
fn unchanged(question: Question) -> Outcome {
    let at: fn(usize) -> u16 = match question.call {
        Call::TwoColor => |place| rules::lent_byte(place).into(),
        _ => rules::lent_number,
    };
    Outcome {
        code: 0,
        report: REPORT_BEFORE,
        lent: (0..question.lent).map(at).collect(),
        entries: (0..question.entries).map(rules::lent_number).collect(),
        wrote_elsewhere: false,
    }
}

/// The table over petgraph's `edges(v)`.
fn incidence(graph: &Graph, outcome: &mut Outcome) {
    let mut total = 0;
    for v in graph.petgraph.node_indices() {
        outcome.lent[v.index()] = total as u16;
        for edge in graph.petgraph.edges(v) {
            outcome.entries[total] = edge.id().index() as u16;
            total += 1;
        }
    }
    outcome.lent[graph.n] = total as u16;
    outcome.report = total;
    // The order of petgraph's edges(v) is 01's, or no answer of the Rust is what 01 asks for.
    let (starts, entries) = rules::table(&graph.edges);
    assert!(outcome.lent == starts && outcome.entries[..total] == entries);
}

fn line_list(graph: &Graph, outcome: &mut Outcome) {
    let pairs = pairs(&graph.line_graph());
    outcome.report = pairs.len();
    for (place, (first, second)) in pairs.into_iter().enumerate() {
        outcome.lent[2 * place] = first as u16;
        outcome.lent[2 * place + 1] = second as u16;
    }
}

fn colors(graph: &Graph, question: Question) -> Vec<u16> {
    let (g, n, m) = (&graph.petgraph, graph.n, graph.m());
    let presets = question.presets;
    match question.call {
        Call::TwoColor => {
            let map = coloring::two_color(g).expect("the Rust has a two-colouring where 01 does");
            assert_eq!(map.len(), n);
            let bytes = (0..n).map(|v| map[&NodeIndex::new(v)]);
            bytes.map(u16::from).collect()
        }
        Call::NodeColor => by_place(&coloring::greedy_node_color(g), NodeIndex::new, n),
        Call::NodeColorPreset => {
            let of = |node: NodeIndex| preset(presets, node.index());
            let map = coloring::greedy_node_color_with_preset_colors(g, of).unwrap();
            by_place(&map, NodeIndex::new, n)
        }
        Call::NodeColorStrategy(number) => ruled_colors(graph, Kind::Nodes, presets, number),
        Call::EdgeColor => by_place(&coloring::greedy_edge_color(g), EdgeIndex::new, m),
        Call::EdgeColorStrategy(number) => ruled_colors(graph, Kind::Edges, presets, number),
        Call::MisraGries => by_place(&coloring::misra_gries_edge_color(g), EdgeIndex::new, m),
        Call::Incidence | Call::LineGraph | Call::AddEdge => unreachable!(),
    }
}

/// A late match by rules.rs.
fn added(graph: &Graph, question: Question) -> Outcome {
    let mut outcome = unchanged(question);
    let (n, ends) = (graph.n as u64, &graph.ends);
    match rules::add_edge(n, ends, question.presets, question.lent) {
        Err(number) => outcome.code = number.into(),
        Ok(colors) => {
            outcome.report = rules::days(&colors);
            outcome.lent = colors;
        }
    }
    outcome
}

/// What the Rust answers, or how 01 refuses.
pub fn answer(graph: &Graph, question: Question) -> Outcome {
    if let Call::AddEdge = question.call {
        return added(graph, question);
    }
    let mut outcome = unchanged(question);
    if let Some(number) = refusal(graph, question) {
        if number == 8 {
            assert!(coloring::two_color(&graph.petgraph).is_none());
        }
        outcome.code = number;
        return outcome;
    }
    match question.call {
        Call::Incidence => incidence(graph, &mut outcome),
        Call::LineGraph => line_list(graph, &mut outcome),
        _ => {
            outcome.lent = colors(graph, question);
            outcome.report = rules::days(&outcome.lent);
        }
    }
    outcome
}
