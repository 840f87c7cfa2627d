//! Reads cases on standard input and prints what the Rust answers, one line for each call; README.md has the format.
//! Where document 01 or 02 refuses, the number is theirs; files are read and written, late matches coloured, days counted
//! and lists compared as rules.rs does; every other answer is that of the unchanged published code.

use std::fmt::Display;
use std::io::{BufWriter, Read, Write};
use std::str::{FromStr, Split};

use petgraph::graph::{EdgeIndex, NodeIndex, UnGraph};
use petgraph::visit::EdgeRef;
use rustworkx_core::coloring::{self, ColoringStrategy};
use rustworkx_core::dictmap::DictMap;
use rustworkx_core::line_graph::line_graph;
use rustworkx_core::rules;

enum Report {
    Days(usize),
    Total(usize),
    Pairs(usize),
    File(u16, usize, u8, u8),
    Length(usize),
    Refused(u8),
}

impl Display for Report {
    fn fmt(&self, f: &mut std::fmt::Formatter) -> std::fmt::Result {
        match self {
            Report::Days(days) => write!(f, "days {days}"),
            Report::Total(total) => write!(f, "total {total}"),
            Report::Pairs(pairs) => write!(f, "pairs {pairs}"),
            Report::File(nodes, edges, tags, method) => {
                write!(f, "nodes {nodes} edges {edges} tags {tags} method {method}")
            }
            Report::Length(length) => write!(f, "length {length}"),
            Report::Refused(number) => write!(f, "refused {number}"),
        }
    }
}

/// A slice as the call got it and as the call left it.
struct Lent<T> {
    before: Vec<T>,
    now: Vec<T>,
}

impl<T: Clone> Lent<T> {
    fn new(length: usize, at: fn(usize) -> T) -> Self {
        let before: Vec<T> = (0..length).map(at).collect();
        Lent {
            now: before.clone(),
            before,
        }
    }
}

impl<T: Display + PartialEq> Display for Lent<T> {
    fn fmt(&self, f: &mut std::fmt::Formatter) -> std::fmt::Result {
        if self.now == self.before {
            f.write_str("unchanged")
        } else {
            f.write_str(&joined(&self.now))
        }
    }
}

fn joined<T: Display>(numbers: &[T]) -> String {
    numbers
        .iter()
        .map(T::to_string)
        .collect::<Vec<_>>()
        .join(" ")
}

/// A stretch of a list.
fn shown(stretch: &[u16]) -> String {
    if stretch.is_empty() {
        "empty".to_string()
    } else {
        joined(stretch)
    }
}

/// The graph that the calls below a graph line are asked about.
struct Graph {
    n: u64,
    ends: Vec<u16>,
    // 01's refusal; the rest has a meaning only without one.
    refusal: Option<u8>,
    edges: Vec<Vec<u16>>,
    petgraph: UnGraph<(), ()>,
}

impl Graph {
    fn new(n: u64, ends: Vec<u16>) -> Self {
        let refusal = rules::graph_refusal(n, &ends);
        let mut petgraph = UnGraph::default();
        let mut edges = Vec::new();
        if refusal.is_none() {
            for _ in 0..n {
                petgraph.add_node(());
            }
            for e in ends.chunks(2) {
                petgraph.add_edge(NodeIndex::new(e[0].into()), NodeIndex::new(e[1].into()), ());
            }
            // The order of petgraph's edges(v) is 01's, or nothing below can be trusted.
            edges = rules::edges_of_nodes(n as usize, &ends);
            for (v, at) in edges.iter().enumerate() {
                let walked = petgraph
                    .edges(NodeIndex::new(v))
                    .map(|e| e.id().index() as u16);
                assert!(walked.eq(at.iter().copied()), "incidence order at node {v}");
            }
        }
        Graph {
            n,
            ends,
            refusal,
            edges,
            petgraph,
        }
    }

    fn m(&self) -> usize {
        self.ends.len() / 2
    }
}

/// Puts the colours of a map, which has every place once, into the slice; hands back the days.
fn put<K: Copy + Eq + std::hash::Hash>(
    colors: &DictMap<K, usize>,
    key: fn(usize) -> K,
    slice: &mut Lent<u16>,
) -> Report {
    assert_eq!(colors.len(), slice.now.len());
    for (i, place) in slice.now.iter_mut().enumerate() {
        let color = colors[&key(i)];
        assert!(color < rules::NONE.into());
        *place = color as u16;
    }
    Report::Days(rules::days(&slice.now))
}

fn strategy(number: u8, presets: &[u16]) -> ColoringStrategy {
    match number {
        0 => ColoringStrategy::Degree,
        1 => ColoringStrategy::Saturation,
        2 => {
            // The Rust visits presets of one colour in a hash set's order, which is no answer to compare with.
            let mut set: Vec<u16> = presets
                .iter()
                .copied()
                .filter(|&p| p != rules::NONE)
                .collect();
            set.sort_unstable();
            assert!(
                set.windows(2).all(|w| w[0] != w[1]),
                "two presets share a colour"
            );
            ColoringStrategy::IndependentSet
        }
        _ => panic!("no strategy {number}"),
    }
}

fn preset(presets: &[u16], i: usize) -> Result<Option<usize>, std::convert::Infallible> {
    Ok(Some(presets[i])
        .filter(|&p| p != rules::NONE)
        .map(usize::from))
}

fn incidence(graph: &Graph, starts: &mut Lent<u16>, entries: &mut Lent<u16>) -> Report {
    if let Some(number) = graph.refusal {
        return Report::Refused(number);
    }
    if starts.now.len() != graph.n as usize + 1 || entries.now.len() != graph.ends.len() {
        return Report::Refused(5);
    }
    let mut total = 0;
    for v in graph.petgraph.node_indices() {
        starts.now[v.index()] = total as u16;
        for edge in graph.petgraph.edges(v) {
            entries.now[total] = edge.id().index() as u16;
            total += 1;
        }
    }
    starts.now[graph.n as usize] = total as u16;
    let (ruled_starts, ruled_entries) = rules::table(&graph.edges);
    assert_eq!(starts.now, ruled_starts);
    assert_eq!(entries.now[..total], ruled_entries);
    Report::Total(total)
}

/// The edges at a node from a place on, in the order of petgraph's edges(v), and the word that ends a walk. A graph that
/// 01 refuses has no table to walk over.
fn edge_walk(graph: &Graph, v: u16, place: usize) -> String {
    let mut words = Vec::new();
    if graph.refusal.is_none() && u64::from(v) < graph.n {
        let edges = graph.petgraph.edges(NodeIndex::new(v.into()));
        words = edges
            .skip(place)
            .map(|e| e.id().index().to_string())
            .collect();
    }
    words.push("end".to_string());
    words.join(" ")
}

fn two_color(graph: &Graph, colors: &mut Lent<u8>) -> Report {
    if let Some(number) = graph.refusal {
        return Report::Refused(number);
    }
    if colors.now.len() != graph.n as usize {
        return Report::Refused(5);
    }
    let answer = coloring::two_color(&graph.petgraph);
    assert_eq!(
        answer.is_none(),
        rules::has_odd_closed_walk(graph.n as usize, &graph.ends)
    );
    let Some(map) = answer else {
        return Report::Refused(8);
    };
    assert_eq!(map.len(), colors.now.len());
    for (i, place) in colors.now.iter_mut().enumerate() {
        *place = map[&NodeIndex::new(i)];
    }
    Report::Days(rules::days(&colors.now))
}

fn line_list(graph: &Graph, list: &mut Lent<u16>) -> Report {
    if let Some(number) = graph.refusal {
        return Report::Refused(number);
    }
    let pairs = rules::pair_count(&graph.edges);
    if list.now.len() < 2 * pairs {
        return Report::Refused(9);
    }
    let (lines, nodes): (UnGraph<(), ()>, _) = line_graph(&graph.petgraph, || (), || ());
    assert_eq!(lines.edge_count(), pairs);
    assert!((0..graph.m()).all(|k| nodes[&EdgeIndex::new(k)] == NodeIndex::new(k)));
    for (place, pair) in lines.edge_references().enumerate() {
        list.now[2 * place] = pair.source().index() as u16;
        list.now[2 * place + 1] = pair.target().index() as u16;
    }
    Report::Pairs(pairs)
}

#[derive(Clone, Copy)]
enum Form {
    Plain,
    Preset,
    Strategy(u8),
}

fn node_color(graph: &Graph, form: Form, presets: &[u16], colors: &mut Lent<u16>) -> Report {
    if let Some(number) = graph.refusal {
        return Report::Refused(number);
    }
    let n = graph.n as usize;
    if colors.now.len() != n || (!matches!(form, Form::Plain) && presets.len() != n) {
        return Report::Refused(5);
    }
    let g = &graph.petgraph;
    let of = |v: NodeIndex| preset(presets, v.index());
    let map = match form {
        Form::Plain => coloring::greedy_node_color(g),
        Form::Preset => coloring::greedy_node_color_with_preset_colors(g, of).unwrap(),
        Form::Strategy(number) => {
            coloring::greedy_node_color_with_coloring_strategy(g, of, strategy(number, presets))
                .unwrap()
        }
    };
    put(&map, NodeIndex::new, colors)
}

fn edge_color(graph: &Graph, form: Form, presets: &[u16], colors: &mut Lent<u16>) -> Report {
    if let Some(number) = graph.refusal {
        return Report::Refused(number);
    }
    if colors.now.len() != graph.m() || (!matches!(form, Form::Plain) && presets.len() != graph.m())
    {
        return Report::Refused(5);
    }
    let g = &graph.petgraph;
    let of = |e: EdgeIndex| preset(presets, e.index());
    let map = match form {
        Form::Plain => coloring::greedy_edge_color(g),
        Form::Preset => unreachable!(),
        Form::Strategy(number) => {
            coloring::greedy_edge_color_with_coloring_strategy(g, of, strategy(number, presets))
                .unwrap()
        }
    };
    put(&map, EdgeIndex::new, colors)
}

fn misra_gries(graph: &Graph, colors: &mut Lent<u16>) -> Report {
    if let Some(number) = graph.refusal {
        return Report::Refused(number);
    }
    if colors.now.len() != graph.m() {
        return Report::Refused(5);
    }
    if rules::has_loop(&graph.ends) {
        return Report::Refused(6);
    }
    if rules::has_double_edge(&graph.ends) {
        return Report::Refused(7);
    }
    put(
        &coloring::misra_gries_edge_color(&graph.petgraph),
        EdgeIndex::new,
        colors,
    )
}

/// What rules.rs has; where the stored colours are the Rust's for the edges before the last, the Rust's own run over all
/// edges must have the same colours.
fn add_edge(graph: &Graph, stored: &[u16], colors: &mut Lent<u16>) -> Report {
    match rules::add_edge(graph.n, &graph.ends, stored, colors.now.len()) {
        Err(number) => return Report::Refused(number),
        Ok(added) => colors.now = added,
    }
    if graph.m() > 0 {
        let before = Graph::new(graph.n, graph.ends[..2 * stored.len()].to_vec());
        let mut held = Lent::new(stored.len(), rules::lent_number);
        misra_gries(&before, &mut held);
        if held.now == stored {
            let mut whole = Lent::new(graph.m(), rules::lent_number);
            misra_gries(graph, &mut whole);
            assert_eq!(colors.now, whole.now, "a late match and the whole run");
        }
    }
    Report::Days(rules::days(&colors.now))
}

/// What both file calls promise: where the graph checks pass, a file's contents are written with its bytes.
fn check_round_trip(file: &[u8], saved: &rules::Saved) {
    assert_eq!(rules::read_file(file).as_ref(), Some(saved));
    if rules::graph_refusal(saved.nodes.into(), &saved.ends).is_none() {
        let colors = saved.colors.as_deref().unwrap_or(&[]);
        let method = saved.method.unwrap_or(rules::UNNAMED);
        let n = saved.nodes.into();
        let again = rules::write_file(n, &saved.ends, colors, saved.tags(), method, file.len());
        assert_eq!(again.as_deref(), Ok(file));
    }
}

fn read_graph_file(file: &[u8], ends: &mut Lent<u16>, colors: &mut Lent<u16>) -> Report {
    let saved = match rules::read_lent(file, ends.now.len(), colors.now.len()) {
        Err(number) => return Report::Refused(number),
        Ok(saved) => saved,
    };
    check_round_trip(file, &saved);
    ends.now[..saved.ends.len()].copy_from_slice(&saved.ends);
    if let Some(stored) = &saved.colors {
        colors.now[..stored.len()].copy_from_slice(stored);
    }
    let method = saved.method.unwrap_or(rules::UNNAMED);
    Report::File(saved.nodes, saved.m(), saved.tags(), method)
}

fn write_graph_file(
    graph: &Graph,
    colors: &[u16],
    tags: u8,
    method: u8,
    output: &mut Lent<u8>,
) -> Report {
    let room = output.now.len();
    let file = match rules::write_file(graph.n, &graph.ends, colors, tags, method, room) {
        Err(number) => return Report::Refused(number),
        Ok(file) => file,
    };
    let saved = rules::read_file(&file).expect("what is written can be read");
    check_round_trip(&file, &saved);
    assert_eq!(
        (u64::from(saved.nodes), &saved.ends),
        (graph.n, &graph.ends)
    );
    assert_eq!(saved.tags(), tags & 12 | 3);
    assert!(saved.colors.map_or(true, |stored| stored == colors));
    assert!(saved.method.map_or(true, |stored| stored == method));
    output.now[..file.len()].copy_from_slice(&file);
    Report::Length(file.len())
}

/// What the program prints for a file, given the Rust's colours. Colours and method in the file are passed over.
fn matchdays(file: &[u8]) -> String {
    let Some(saved) = rules::read_file(file) else {
        return "refused 10\n".to_string();
    };
    let graph = Graph::new(saved.nodes.into(), saved.ends);
    let mut colors = Lent::new(graph.m(), rules::lent_number);
    let report = misra_gries(&graph, &mut colors);
    let mut text = format!("{report}\n");
    if let Report::Days(_) = report {
        for (k, color) in colors.now.iter().enumerate() {
            let (u, v) = (graph.ends[2 * k], graph.ends[2 * k + 1]);
            text.push_str(&format!("{k} {u} {v} {color}\n"));
        }
    }
    text
}

/// The words of one line; anything but the format of README.md is a fault of the case file and ends the program.
struct Words<'a> {
    line: usize,
    words: Split<'a, char>,
}

impl<'a> Words<'a> {
    fn word(&mut self) -> &'a str {
        let line = self.line;
        self.words
            .next()
            .unwrap_or_else(|| panic!("line {line}: a word is missing"))
    }

    fn number<T: FromStr>(&mut self) -> T {
        let word = self.word();
        let number = word
            .parse()
            .ok()
            .filter(|_| word.bytes().all(|b| b.is_ascii_digit()));
        number.unwrap_or_else(|| panic!("line {}: {word:?} is no number of this kind", self.line))
    }

    fn list<T: FromStr>(&mut self) -> Vec<T> {
        let length: usize = self.number();
        (0..length).map(|_| self.number()).collect()
    }

    fn lent(&mut self) -> Lent<u16> {
        Lent::new(self.number(), rules::lent_number)
    }

    fn end(&mut self) {
        assert!(
            self.words.next().is_none(),
            "line {}: a word too many",
            self.line
        );
    }
}

fn main() {
    // Another seed gives other hashes and other choices among equal nodes of Saturation.
    if let Ok(seed) = std::env::var("ORACLE_SEED") {
        let seed = seed.parse().expect("ORACLE_SEED is a number");
        foldhash::set_seed(seed);
        priority_queue::set_seed(seed);
    }

    let mut cases = String::new();
    std::io::stdin().read_to_string(&mut cases).unwrap();
    let mut out = BufWriter::new(std::io::stdout().lock());

    let mut graph = Graph::new(0, Vec::new());
    let mut presets: Vec<u16> = Vec::new();
    let mut file: Vec<u8> = Vec::new();
    for (i, line) in cases.lines().enumerate() {
        let mut words = Words {
            line: i + 1,
            words: line.split(' '),
        };
        let name = words.word();
        match name {
            "graph" => {
                let n = words.number();
                graph = Graph::new(n, words.list());
                words.end();
                continue;
            }
            "presets" => {
                presets = words.list();
                words.end();
                continue;
            }
            "file" => {
                file = words.list();
                words.end();
                continue;
            }
            "read_graph_file" => {
                let (mut ends, mut colors) = (words.lent(), words.lent());
                words.end();
                let report = read_graph_file(&file, &mut ends, &mut colors);
                writeln!(out, "{name} {report}: {ends}; {colors}").unwrap();
                continue;
            }
            "write_graph_file" => {
                let (tags, method) = (words.number(), words.number());
                let mut output = Lent::new(words.number(), rules::lent_byte);
                words.end();
                let report = write_graph_file(&graph, &presets, tags, method, &mut output);
                writeln!(out, "{name} {report}: {output}").unwrap();
                continue;
            }
            "matchdays" => {
                let length: usize = words.number();
                words.end();
                let text = matchdays(&file);
                let shown = &text[..length.min(text.len())];
                writeln!(out, "{name} length {}:\n{shown}", text.len()).unwrap();
                continue;
            }
            "incidence" => {
                let (mut starts, mut entries) = (words.lent(), words.lent());
                words.end();
                let report = incidence(&graph, &mut starts, &mut entries);
                writeln!(out, "{name} {report}: {starts}; {entries}").unwrap();
                continue;
            }
            "edges_at" => {
                let node = words.number();
                let (starts, entries) = (words.list(), words.list());
                words.end();
                let stretch = rules::stretch(&starts, &entries, node);
                writeln!(out, "{name}: {}", shown(stretch)).unwrap();
                continue;
            }
            "fewer_days" => {
                let m = words.number();
                let (first, second) = (words.list(), words.list());
                words.end();
                let (second_wins, part) = rules::fewer_days(&first, &second, m);
                let list = if second_wins { "second" } else { "first" };
                let (length, part) = (part.len(), shown(part));
                writeln!(out, "{name} {list} length {length}: {part}").unwrap();
                continue;
            }
            "edge_walk" => {
                let (node, place) = (words.number(), words.number());
                words.end();
                writeln!(out, "{name}: {}", edge_walk(&graph, node, place)).unwrap();
                continue;
            }
            "two_color" => {
                let mut colors = Lent::new(words.number(), rules::lent_byte);
                words.end();
                let report = two_color(&graph, &mut colors);
                writeln!(out, "{name} {report}: {colors}").unwrap();
                continue;
            }
            _ => {}
        }
        // The calls that are left lend one slice of numbers, its length last.
        let form = match name {
            "greedy_node_color_with_coloring_strategy"
            | "greedy_edge_color_with_coloring_strategy" => Form::Strategy(words.number()),
            "greedy_node_color_with_preset_colors" => Form::Preset,
            _ => Form::Plain,
        };
        let mut slice = words.lent();
        words.end();
        let report = match name {
            "line_graph" => line_list(&graph, &mut slice),
            "greedy_node_color"
            | "greedy_node_color_with_preset_colors"
            | "greedy_node_color_with_coloring_strategy" => {
                node_color(&graph, form, &presets, &mut slice)
            }
            "greedy_edge_color" | "greedy_edge_color_with_coloring_strategy" => {
                edge_color(&graph, form, &presets, &mut slice)
            }
            "misra_gries_edge_color" => misra_gries(&graph, &mut slice),
            "misra_gries_add_edge" => add_edge(&graph, &presets, &mut slice),
            _ => panic!("line {}: no call {name:?}", i + 1),
        };
        writeln!(out, "{name} {report}: {slice}").unwrap();
    }
    out.flush().unwrap();
}
