//! Writes the case file, the same bytes each time: `cases FAMILY ..` with the families incidence, two_color,
//! line_graph, node_color, edge_color, misra_gries, late, file, fewer_days. All cases are made and only then sifted by
//! family, so switching a family on alters no line of another.

use std::io::Write;

use petgraph::graph::{EdgeIndex, NodeIndex, UnGraph};
use rustworkx_core::coloring::misra_gries_edge_color;
use rustworkx_core::rules::{self, field_bytes, Saved, COLORS_TOLD, METHOD_TOLD, NONE};
use rustworkx_core::shapes::{
    bipartite, complete, cycle, flat, mixed, path, proper_colors, renamed, simple, star, two_lists,
    Edges, Random,
};

#[derive(Clone, Copy, PartialEq)]
enum Family {
    Incidence,
    TwoColor,
    LineGraph,
    NodeColor,
    EdgeColor,
    MisraGries,
    Late,
    File,
    FewerDays,
}

impl Family {
    fn named(name: &str) -> Option<Family> {
        Some(match name {
            "incidence" => Family::Incidence,
            "two_color" => Family::TwoColor,
            "line_graph" => Family::LineGraph,
            "node_color" => Family::NodeColor,
            "edge_color" => Family::EdgeColor,
            "misra_gries" => Family::MisraGries,
            "late" => Family::Late,
            "file" => Family::File,
            "fewer_days" => Family::FewerDays,
            _ => return None,
        })
    }
}

/// One graph line with the lines below it.
struct Block {
    n: u64,
    ends: Vec<u16>,
    lines: Vec<Line>,
}

enum Line {
    Presets(Vec<u16>),
    Call {
        family: Family,
        asks_presets: bool,
        text: String,
    },
}

fn words<T: ToString>(numbers: &[T]) -> String {
    // The length, then the numbers.
    let mut text = numbers.len().to_string();
    for number in numbers {
        text.push(' ');
        text.push_str(&number.to_string());
    }
    text
}

impl Block {
    fn new(n: u64, ends: &[u16]) -> Block {
        Block {
            n,
            ends: ends.to_vec(),
            lines: Vec::new(),
        }
    }

    fn of(n: u16, edges: &[(u16, u16)]) -> Block {
        Block::new(n.into(), &flat(edges))
    }

    fn n(&self) -> usize {
        self.n as usize
    }

    fn m(&self) -> usize {
        self.ends.len() / 2
    }

    fn edges(&self) -> Vec<Vec<u16>> {
        rules::edges_of_nodes(self.n(), &self.ends)
    }

    fn call(&mut self, family: Family, asks_presets: bool, text: String) {
        self.lines.push(Line::Call {
            family,
            asks_presets,
            text,
        });
    }

    fn incidence(&mut self, starts: usize, entries: usize) {
        self.call(
            Family::Incidence,
            false,
            format!("incidence {starts} {entries}"),
        );
    }

    fn edges_at(&mut self, v: u16, starts: &[u16], entries: &[u16]) {
        let text = format!("edges_at {v} {} {}", words(starts), words(entries));
        self.call(Family::Incidence, false, text);
    }

    /// Asks the graph's own table, as the incidence call leaves it.
    fn edges_at_own(&mut self, nodes: &[u16]) {
        let (starts, mut entries) = rules::table(&self.edges());
        entries.extend((entries.len()..self.ends.len()).map(rules::lent_number));
        for &v in nodes {
            self.edges_at(v, &starts, &entries);
        }
    }

    fn edge_walk(&mut self, v: u16, place: usize) {
        self.call(Family::Incidence, false, format!("edge_walk {v} {place}"));
    }

    /// Walks over these nodes' edges: all of them, all but the first, and from the places at and beyond the end.
    fn edge_walks(&mut self, nodes: &[u16]) {
        let edges = self.edges();
        for &v in nodes {
            let count = edges.get(usize::from(v)).map_or(0, Vec::len);
            let mut places = vec![0, 1, count, count + 1, usize::MAX];
            places.sort_unstable();
            places.dedup();
            for place in places {
                self.edge_walk(v, place);
            }
        }
    }

    fn two_color(&mut self, colors: usize) {
        self.call(Family::TwoColor, false, format!("two_color {colors}"));
    }

    fn line_graph(&mut self, list: usize) {
        self.call(Family::LineGraph, false, format!("line_graph {list}"));
    }

    fn presets(&mut self, presets: Vec<u16>) {
        self.lines.push(Line::Presets(presets));
    }

    fn node_color(&mut self, colors: usize) {
        self.call(
            Family::NodeColor,
            false,
            format!("greedy_node_color {colors}"),
        );
    }

    fn node_color_preset(&mut self, colors: usize) {
        self.call(
            Family::NodeColor,
            true,
            format!("greedy_node_color_with_preset_colors {colors}"),
        );
    }

    fn node_color_by(&mut self, strategies: &[u8], colors: usize) {
        for strategy in strategies {
            let text = format!("greedy_node_color_with_coloring_strategy {strategy} {colors}");
            self.call(Family::NodeColor, true, text);
        }
    }

    fn edge_color(&mut self, colors: usize) {
        self.call(
            Family::EdgeColor,
            false,
            format!("greedy_edge_color {colors}"),
        );
    }

    fn edge_color_by(&mut self, strategies: &[u8], colors: usize) {
        for strategy in strategies {
            let text = format!("greedy_edge_color_with_coloring_strategy {strategy} {colors}");
            self.call(Family::EdgeColor, true, text);
        }
    }

    fn misra_gries(&mut self, colors: usize) {
        self.call(
            Family::MisraGries,
            false,
            format!("misra_gries_edge_color {colors}"),
        );
    }

    /// The presets are the stored colours.
    fn add_edge(&mut self, colors: usize) {
        self.call(Family::Late, true, format!("misra_gries_add_edge {colors}"));
    }

    /// With these stored colours and a place for each edge.
    fn add_edge_to(&mut self, stored: &[u16]) {
        self.presets(stored.to_vec());
        self.add_edge(self.m());
    }

    /// The presets are the colours that are handed to it.
    fn write_file(&mut self, tags: u8, method: u8, output: usize) {
        let text = format!("write_graph_file {tags} {method} {output}");
        self.call(Family::File, true, text);
    }

    /// Every call with the right lengths and no presets. A line list that is long is only asked with too little lent.
    fn every_call(&mut self) {
        let (n, m) = (self.n(), self.m());
        self.incidence(n + 1, 2 * m);
        self.two_color(n);
        self.line_graph((2 * rules::pair_count(&self.edges())).min(16384));
        self.node_color(n);
        self.presets(vec![NONE; n]);
        self.node_color_preset(n);
        self.node_color_by(&[0, 1, 2], n);
        self.edge_color(m);
        self.presets(vec![NONE; m]);
        self.edge_color_by(&[0, 1, 2], m);
        self.misra_gries(m);
    }

    /// Every call with these lengths, for a graph that is refused whatever is lent.
    fn every_call_refused(&mut self, n: usize, m: usize) {
        self.incidence(n + 1, 2 * m);
        self.two_color(n);
        self.line_graph(2 * m);
        self.node_color(n);
        self.presets(vec![NONE; n]);
        self.node_color_preset(n);
        self.node_color_by(&[0, 1, 2], n);
        self.edge_color(m);
        self.presets(vec![NONE; m]);
        self.edge_color_by(&[0, 1, 2], m);
        self.misra_gries(m);
        // Nothing wrong beside the graph; a method above 3; tag 4 alone and no room.
        self.write_file(12, 3, 15 + 6 * m);
        self.write_file(12, 4, 15 + 6 * m);
        self.write_file(8, 0, 0);
        // Nothing wrong beside the graph, or stored colours that 11 refuses; lengths that 5 refuses.
        if m < 100 {
            self.presets(vec![0; m.saturating_sub(1)]);
            self.add_edge(m);
        }
        self.presets(vec![NONE; 3]);
        self.add_edge(m);
    }

    /// Every call with lengths that are wrong by one or more, either way.
    fn wrong_lengths(&mut self) {
        let (n, m) = (self.n(), self.m());
        let around = |right: usize| match right {
            0 => vec![1],
            1 => vec![2, 0],
            _ => vec![right + 1, right - 1, 0],
        };
        for starts in around(n + 1) {
            self.incidence(starts, 2 * m);
        }
        for entries in around(2 * m) {
            self.incidence(n + 1, entries);
        }
        if m > 0 {
            self.incidence(n, m);
            self.incidence(0, 0);
        }
        for colors in around(n) {
            self.two_color(colors);
            self.node_color(colors);
            for (presets, colors) in preset_lengths(n, colors) {
                self.presets(vec![NONE; presets]);
                self.node_color_preset(colors);
                self.node_color_by(&[0, 1, 2], colors);
            }
        }
        // The form without presets doesn't test their length, which is wrong here; so with edges below.
        self.node_color(n);
        let pairs = rules::pair_count(&self.edges());
        if pairs > 0 {
            self.line_graph(0);
        }
        if pairs > 0 && pairs < 5000 {
            self.line_graph(2 * pairs - 1);
        }
        if pairs < 5000 {
            self.line_graph(2 * pairs + 1);
            self.line_graph(2 * pairs + 20);
        }
        for colors in around(m) {
            self.edge_color(colors);
            self.misra_gries(colors);
            for (presets, colors) in preset_lengths(m, colors) {
                self.presets(vec![NONE; presets]);
                self.edge_color_by(&[0, 1, 2], colors);
            }
        }
        if m < 1000 {
            self.edge_color(m);
        }
        if m > 0 {
            self.misra_gries(2 * m);
        }
    }

    fn node_presets(&mut self, presets: &[u16]) {
        let n = self.n();
        self.presets(presets.to_vec());
        self.node_color_preset(n);
        self.node_color_by(asked(presets), n);
    }

    fn edge_presets(&mut self, presets: &[u16]) {
        let m = self.m();
        self.presets(presets.to_vec());
        self.edge_color_by(asked(presets), m);
    }

    /// Presets of the usual kinds, for nodes and for edges.
    fn some_presets(&mut self, random: &mut Random) {
        for nodes in [true, false] {
            let length = if nodes { self.n() } else { self.m() };
            let mut lists = vec![few(random, length), different(random, length)];
            if random.below(4) == 0 {
                lists.push(vec![random.below(3) as u16; length]);
            }
            for presets in lists {
                if nodes {
                    self.node_presets(&presets);
                } else {
                    self.edge_presets(&presets);
                }
            }
        }
    }
}

/// Lengths of presets and colours of which one is wrong or both are. Long presets would swell the file, so for them only
/// one kind is asked.
fn preset_lengths(right: usize, wrong: usize) -> Vec<(usize, usize)> {
    if right > 100 {
        vec![(wrong, right)]
    } else {
        vec![(right, wrong), (wrong, wrong), (wrong, right)]
    }
}

/// The strategies that may be asked: for IndependentSet the Rust's answer is settled only if no two presets share a
/// colour.
fn asked(presets: &[u16]) -> &'static [u8] {
    let mut set: Vec<u16> = presets.iter().copied().filter(|&p| p != NONE).collect();
    set.sort_unstable();
    if set.windows(2).all(|w| w[0] != w[1]) {
        &[0, 1, 2]
    } else {
        &[0, 1]
    }
}

/// A third of the places preset, out of few colours, so that equal ones meet.
fn few(random: &mut Random, length: usize) -> Vec<u16> {
    (0..length)
        .map(|_| {
            if random.below(3) == 0 {
                random.below(4) as u16
            } else {
                NONE
            }
        })
        .collect()
}

/// Some places preset, each colour once: small ones, which meet the colours of the run, and now and then the greatest.
fn different(random: &mut Random, length: usize) -> Vec<u16> {
    let mut colors: Vec<u16> = (0..6).collect();
    random.shuffle(&mut colors);
    if random.below(5) == 0 {
        colors.push(65534);
    }
    let mut presets = vec![NONE; length];
    if length > 0 {
        for _ in 0..random.below(7) {
            presets[random.below(length)] = colors.pop().unwrap();
        }
    }
    presets
}

fn limits(random: &mut Random, blocks: &mut Vec<Block>) {
    for n in [0, 1, 2, 511, 512] {
        let mut b = Block::new(n, &[]);
        b.every_call();
        b.wrong_lengths();
        blocks.push(b);
    }
    // Above the limit; some of these become small numbers if they are cut to 8, 16, 32 or 63 bits.
    for n in [
        513,
        514,
        1024,
        65535,
        65536,
        65541,
        1 << 32,
        (1 << 32) + 5,
        1 << 63,
        (1 << 63) + 5,
        u64::MAX - 1,
    ] {
        let mut b = Block::new(n, &[0, 1, 1, 2]);
        b.every_call_refused((n % 256) as usize, 2);
        if n < 2000 {
            b.every_call_refused(n as usize, 2);
        }
        blocks.push(b);
    }
    // One more than this count of nodes is 0 in 64 bits.
    let mut b = Block::new(u64::MAX, &[]);
    b.incidence(0, 0);
    b.every_call_refused(0, 0);
    b.every_call_refused(5, 0);
    blocks.push(b);

    // The last end that is inside, the first outside, in each place of the list.
    for n in [1, 2, 5, 256, 512] {
        let inside = [0, n - 1, n - 1, 0, 0, n - 1];
        let mut b = Block::new(n.into(), &inside);
        b.every_call();
        blocks.push(b);
        for place in 0..inside.len() {
            for outside in [n, 65535] {
                if outside == 65535 && place != 3 {
                    continue;
                }
                let mut ends = inside;
                ends[place] = outside;
                let mut b = Block::new(n.into(), &ends);
                b.every_call_refused(n.into(), 3);
                blocks.push(b);
            }
        }
    }
    let mut b = Block::new(0, &[0, 0]);
    b.every_call_refused(0, 1);
    blocks.push(b);

    // Odd lengths.
    for ends in [&[0][..], &[0, 1, 2], &[0, 1, 1, 2, 2]] {
        let mut b = Block::new(3, ends);
        b.every_call_refused(3, ends.len() / 2);
        b.every_call_refused(3, ends.len().div_ceil(2));
        b.incidence(4, ends.len());
        blocks.push(b);
    }

    // 4,096 edges and 4,097, and an odd length on either side of the limit.
    for length in [8192, 8194, 8191, 8193] {
        let ends: Vec<u16> = (0..length).map(|i| i % 2).collect();
        let mut b = Block::new(2, &ends);
        if length == 8192 {
            // The line list has 16,773,120 pairs; twice that leaves 57,344 in 16 bits.
            b.line_graph(0);
            b.line_graph(8192);
            b.line_graph(57344);
            b.incidence(3, 8192);
            b.two_color(2);
            b.node_color(2);
            b.presets(vec![NONE; 2]);
            b.node_color_preset(2);
            b.node_color_by(&[0, 1, 2], 2);
            b.edge_color(4096);
            b.presets(vec![NONE; 4096]);
            b.edge_color_by(&[0, 1, 2], 4096);
            b.misra_gries(4096);
            b.wrong_lengths();
        } else {
            b.every_call_refused(2, usize::from(length) / 2);
            b.every_call_refused(2, 4096);
        }
        blocks.push(b);
    }
    // As many loops: half of the entries stay as they were lent.
    let mut b = Block::new(1, &[0; 8192]);
    b.incidence(2, 8192);
    b.incidence(2, 4096);
    b.two_color(1);
    b.line_graph(8192);
    b.node_color(1);
    b.edge_color(4096);
    b.misra_gries(4096);
    blocks.push(b);

    // 512 nodes with 4,096 edges: without loops and double edges, with them, and in two parts.
    let mut b = Block::of(512, &simple(random, 512, 4096));
    b.every_call();
    b.wrong_lengths();
    b.edges_at_own(&[300]);
    b.edge_walks(&[300]);
    b.some_presets(random);
    blocks.push(b);
    let any: Edges = (0..4096)
        .map(|_| (random.node(512), random.node(512)))
        .collect();
    let mut b = Block::of(512, &any);
    b.every_call();
    blocks.push(b);
    let parts: Edges = (0..4096)
        .map(|_| (random.node(256), 256 + random.node(256)))
        .collect();
    let mut b = Block::of(512, &mixed(random, &parts));
    b.every_call();
    blocks.push(b);
}

/// Several refusals are due at once; the first in 01's order is the answer.
fn orders(blocks: &mut Vec<Block>) {
    let long: Vec<u16> = (0..8194).map(|i| i % 2).collect();
    let long_odd = &long[..8193];
    let triangle = [0, 1, 1, 2, 2, 0];
    let looped = [0, 1, 1, 1, 1, 0];
    let list: &[(u64, &[u16])] = &[
        (513, &[0]),                // 1, 2
        (513, &[600, 0]),           // 1, 4
        (u64::MAX, &[0, 1, 65535]), // 1, 2, (4)
        (513, &long),               // 1, 3
        (513, long_odd),            // 1, 2, 3
        (1, long_odd),              // 2, 3, 4
        (1, &long),                 // 3, 4
        (0, &[0]),                  // 2, 4
        (2, &[0, 1, 2]),            // 2, 4
        (2, &triangle),             // 4, and an odd closed walk
        (1, &looped),               // 4, and 6 and 7
    ];
    for &(n, ends) in list {
        let mut b = Block::new(n, ends);
        b.every_call_refused((n % 1000) as usize, ends.len() / 2);
        b.edge_walk(0, 0);
        b.every_call_refused(7, 3);
        b.line_graph(0);
        blocks.push(b);
    }
    // Wrong lengths where 8, 6 and 7 would follow; both 6 and 7, the double edge first in the list.
    for (n, ends) in [
        (3, &triangle[..]),
        (2, &looped),
        (1, &[0, 0]),
        (2, &[0, 1, 1, 0]),
        (2, &[0, 1, 1, 0, 1, 1]),
    ] {
        let mut b = Block::new(n, ends);
        b.every_call();
        b.wrong_lengths();
        blocks.push(b);
    }
}

fn shapes(random: &mut Random, blocks: &mut Vec<Block>) {
    // Small lists, asked for every node's edges too: loops, double edges in both orders, the two incidence groups,
    // isolated nodes in front, between and behind.
    let small: &[(u16, &[(u16, u16)])] = &[
        (1, &[(0, 0)]),
        (1, &[(0, 0), (0, 0), (0, 0)]),
        (2, &[(0, 0)]),
        (2, &[(1, 1)]),
        (2, &[(0, 1)]),
        (2, &[(1, 0)]),
        (2, &[(0, 1), (0, 1)]),
        (2, &[(0, 1), (1, 0)]),
        (2, &[(1, 0), (0, 1), (1, 0), (1, 0), (0, 1)]),
        (2, &[(0, 1), (0, 0), (1, 0), (0, 0), (1, 1), (0, 1)]),
        (3, &[(0, 1), (2, 0)]),
        (3, &[(1, 0), (0, 2)]),
        (3, &[(1, 2)]),
        (3, &[(0, 2)]),
        (3, &[(1, 2), (0, 2)]),
        (3, &[(0, 1), (1, 2), (0, 2)]),
        (3, &[(2, 1), (1, 0), (0, 2), (2, 2)]),
        (4, &[(0, 1), (0, 2), (1, 2), (0, 3)]),
        (4, &[(0, 1), (1, 2), (0, 2), (2, 3)]),
        (4, &[(0, 1), (1, 2), (2, 3)]),
        (4, &[(0, 1), (2, 0), (1, 3), (0, 3)]),
        (4, &[(1, 0), (0, 2), (2, 1), (1, 3), (3, 0)]),
        (4, &[(2, 3), (3, 2), (2, 2)]),
        (5, &[(0, 1), (1, 2), (2, 3), (3, 4)]),
        (5, &[(4, 3), (1, 4), (3, 4), (4, 1), (4, 4), (1, 3)]),
        (6, &[(5, 4), (3, 2), (1, 0)]),
        (7, &[(2, 4), (4, 2), (2, 4), (3, 3), (4, 3)]),
        (8, &[(7, 4), (5, 6), (7, 1), (5, 7), (3, 6), (6, 1)]),
    ];
    for &(n, edges) in small {
        let mut b = Block::of(n, edges);
        b.every_call();
        b.wrong_lengths();
        let nodes: Vec<u16> = (0..n + 2).chain([65535]).collect();
        b.edges_at_own(&nodes);
        b.edge_walks(&nodes);
        b.some_presets(random);
        blocks.push(b);
    }

    // Tables that no call makes.
    let mut b = Block::new(0, &[]);
    let broken: &[(u16, &[u16], &[u16])] = &[
        (0, &[], &[]),
        (0, &[], &[7, 8, 9]),
        (65535, &[], &[7]),
        (0, &[0], &[7]),
        (0, &[1], &[7, 8]),
        (0, &[0, 0], &[7]),
        (0, &[0, 1], &[]),
        (0, &[0, 1], &[7]),
        (0, &[0, 2], &[7]),
        (0, &[0, 65535], &[7]),
        (0, &[1, 1], &[7]),
        (0, &[1, 2], &[7]),
        (0, &[2, 2], &[7]),
        (0, &[1, 0], &[7]),
        (0, &[65535, 0], &[7]),
        (0, &[65535, 65535], &[7]),
        (0, &[1, 3], &[65535, 65534, 0, 5]),
        (1, &[1, 3], &[65535, 65534, 0, 5]),
        (1, &[4, 3, 4], &[6, 7, 8, 9]),
        (0, &[4, 3, 4], &[6, 7, 8, 9]),
        (1, &[0, 4, 4, 5], &[6, 7, 8, 9]),
        (2, &[0, 4, 4, 5], &[6, 7, 8, 9]),
        (2, &[9, 9, 2, 4], &[6, 7, 8, 9]),
        (3, &[0, 1, 2, 3], &[6, 7, 8]),
        (4, &[0, 1, 2, 3], &[6, 7, 8]),
        (65534, &[0, 1, 2, 3], &[6, 7, 8]),
        (65535, &[0, 1, 2, 3], &[6, 7, 8]),
    ];
    for &(v, starts, entries) in broken {
        b.edges_at(v, starts, entries);
    }
    blocks.push(b);

    let mut graphs: Vec<(u16, Edges)> = Vec::new();
    for n in [2, 3, 6, 20] {
        graphs.push((n, path(n)));
        graphs.push((n, path(n).into_iter().rev().map(|(u, v)| (v, u)).collect()));
        graphs.push((n, mixed(random, &path(n))));
    }
    graphs.push((512, path(512)));
    graphs.push((512, mixed(random, &path(512))));
    for n in [2, 3, 4, 5, 6, 7, 8, 9, 20, 21, 101] {
        graphs.push((n, cycle(n)));
        graphs.push((n, mixed(random, &cycle(n))));
    }
    graphs.push((511, mixed(random, &cycle(511))));
    graphs.push((512, cycle(512)));
    graphs.push((512, mixed(random, &cycle(512))));
    for n in [3, 4, 7, 30] {
        graphs.push((n, star(n)));
        graphs.push((n, mixed(random, &star(n))));
        // The hub as the last node, and as second end.
        graphs.push((
            n,
            star(n).into_iter().map(|(_, v)| (v - 1, n - 1)).collect(),
        ));
    }
    graphs.push((120, star(120)));
    graphs.push((512, mixed(random, &star(512))));
    for n in [4, 5, 6, 20] {
        graphs.push((n, complete(n)));
        graphs.push((n, mixed(random, &complete(n))));
    }
    graphs.push((6, mixed(random, &bipartite(3, 3))));
    graphs.push((12, mixed(random, &bipartite(5, 7))));
    graphs.push((128, bipartite(64, 64)));
    // Components: single edges with free nodes between, cycles side by side, an odd one last.
    graphs.push((400, (0..100).map(|i| (4 * i + 2, 4 * i + 1)).collect()));
    let cycles = |lengths: &[u16]| -> (u16, Edges) {
        let mut from = 0;
        let mut edges = Vec::new();
        for &length in lengths {
            edges.extend(cycle(length).into_iter().map(|(u, v)| (u + from, v + from)));
            from += length;
        }
        (from, edges)
    };
    for lengths in [&[4, 6, 4, 8][..], &[4, 6, 4, 5], &[3, 4, 6], &[2, 1, 2]] {
        let (n, edges) = cycles(lengths);
        graphs.push((n, mixed(random, &edges)));
    }
    // Components whose nodes are interleaved: edges join nodes with the same remainder.
    graphs.push((
        60,
        mixed(random, &(0..55).map(|v| (v, v + 5)).collect::<Edges>()),
    ));
    for (n, edges) in graphs {
        let mut b = Block::of(n, &edges);
        b.every_call();
        if n <= 30 {
            b.some_presets(random);
        }
        blocks.push(b);
    }

    // The greatest complete graph; 8,014 is what 16 bits leave of its line list's 728,910 numbers.
    for edges in [complete(91), mixed(random, &complete(91))] {
        let mut b = Block::of(91, &edges);
        b.line_graph(8014);
        b.node_color(91);
        b.presets(vec![NONE; 91]);
        b.node_color_by(&[0, 1, 2], 91);
        b.edge_color(4095);
        b.presets(vec![NONE; 4095]);
        b.edge_color_by(&[0, 1, 2], 4095);
        b.misra_gries(4095);
        blocks.push(b);
    }
    // 257 edges at one node: 65,792 numbers, of which 16 bits leave 256.
    let mut b = Block::of(258, &star(258));
    b.line_graph(256);
    b.line_graph(65535);
    blocks.push(b);
    // 64 by 64 in another order, for the colourings.
    let mut b = Block::of(128, &mixed(random, &bipartite(64, 64)));
    b.edge_color(4096);
    b.misra_gries(4096);
    blocks.push(b);
}

/// Presets by hand: the greatest and the least colour, all preset, equal ones side by side, holes below a preset.
fn presets_by_hand(blocks: &mut Vec<Block>) {
    let n = NONE;
    let triangle = [(0, 1), (1, 2), (0, 2)];
    type Lists<'a> = &'a [(u16, &'a [(u16, u16)], &'a [&'a [u16]])];
    let lists: Lists = &[
        (1, &[], &[&[n], &[0], &[65534], &[5]]),
        (
            2,
            &[(0, 1)],
            &[
                &[n, n],
                &[4, 4],
                &[0, n],
                &[n, 0],
                &[1, n],
                &[65534, n],
                &[65534, 0],
                &[65534, 65534],
            ],
        ),
        (
            3,
            &[(0, 1), (0, 2)],
            &[
                &[1, n, n],
                &[n, 1, 1],
                &[n, 0, 1],
                &[0, 0, 0],
                &[65534, n, 0],
                &[n, 1, 2],
            ],
        ),
        (
            3,
            &triangle,
            &[
                &[0, 0, n],
                &[n, 1, 1],
                &[2, 2, 2],
                &[1, n, n],
                &[n, n, 65534],
                &[0, 1, 2],
                &[n, 0, 2],
            ],
        ),
        (
            4,
            &[(0, 1), (1, 2), (2, 3)],
            &[
                &[n, 0, n, n],
                &[n, 1, n, n],
                &[0, n, n, 1],
                &[n, n, 0, 0],
                &[3, 2, 1, 0],
            ],
        ),
        (2, &[(0, 1), (1, 0)], &[&[n, 0], &[0, n], &[1, 1]]),
        (1, &[(0, 0)], &[&[n], &[0], &[3]]),
        (
            2,
            &[(0, 0), (0, 1), (1, 1)],
            &[&[n, 0], &[0, n], &[2, n], &[0, 0]],
        ),
    ];
    for &(nodes, edges, presets) in lists {
        let mut b = Block::of(nodes, edges);
        for list in presets {
            b.node_presets(list);
            // As many edges as nodes, or the list doesn't fit the edges.
            if list.len() == b.m() {
                b.edge_presets(list);
            }
        }
        blocks.push(b);
    }
    // Every choice of none, 0, 1 and 2 for the four edges of a triangle with a tail.
    let mut b = Block::of(4, &[(0, 1), (1, 2), (0, 2), (2, 3)]);
    for code in 0..256 {
        let list: Vec<u16> = (0..4).map(|i| [n, 0, 1, 2][code >> (2 * i) & 3]).collect();
        b.edge_presets(&list);
        b.node_presets(&list);
    }
    blocks.push(b);
}

/// Presets with gaps between them, which are no days: narrow and wide gaps, few colours and as many as there may be.
fn gaps(blocks: &mut Vec<Block>) {
    let mut b = Block::new(3, &[]);
    for list in [
        [9, 0, 9],
        [63, 0, 62],
        [64, 0, 63],
        [4095, 0, 4095],
        [4096, 0, 4095],
        [1, 4096, 4097],
        [5, 4101, 8197],
        [65534, 0, 65533],
        [65534, 61439, 61438],
        [65534, 65534, NONE],
        [NONE, 65534, NONE],
    ] {
        b.node_presets(&list);
    }
    blocks.push(b);

    // Some colours again and again, on lists that are short and longer.
    for n in [63, 64, 65, 130] {
        let mut b = Block::new(n, &[]);
        for colors in [
            [7, 7 + 4095, 7 + 4096, 7 + 4097],
            [7, 7 + 16383, 7 + 16384, 7 + 16385],
            [7, 7 + 32767, 7 + 32768, 7 + 32769],
            [0, 16383, 32768, 65534],
            [65534, 65534 - 16384, 63, NONE],
        ] {
            let nodes = 0..b.n();
            b.node_presets(&nodes.map(|v| colors[v % 4]).collect::<Vec<u16>>());
        }
        let nodes = 0..n as u16;
        b.node_presets(&nodes.map(|v| 500 * v).collect::<Vec<u16>>());
        blocks.push(b);
    }

    let random = &mut Random(80_000);
    let edges = simple(random, 512, 4096);
    let mut b = Block::of(512, &edges);
    for step in [1, 9, 128] {
        b.node_presets(&(0..512).map(|v| v * step).collect::<Vec<u16>>());
    }
    let mut far_apart: Vec<u16> = (0..4096).map(|k| 65534 - 16 * k).collect();
    random.shuffle(&mut far_apart);
    b.edge_presets(&far_apart);
    b.edge_presets(&(0..4096).map(|k| k % 2 * 65534).collect::<Vec<u16>>());
    blocks.push(b);
}

/// A loop, and a double edge, in each place of a small list.
fn loops_and_doubles(blocks: &mut Vec<Block>) {
    let base = [(0, 1), (2, 1), (3, 0), (3, 4), (4, 2)];
    let mut add = |edges: Edges| {
        let mut b = Block::of(5, &edges);
        b.misra_gries(edges.len());
        blocks.push(b);
    };
    add(base.to_vec());
    for place in 0..=base.len() {
        for node in [0, 4] {
            let mut edges = base.to_vec();
            edges.insert(place, (node, node));
            add(edges);
        }
        for &(u, v) in &base {
            for double in [(u, v), (v, u)] {
                let mut edges = base.to_vec();
                edges.insert(place, double);
                add(edges.clone());
                if place == 0 {
                    edges.push((2, 2));
                    add(edges);
                }
            }
        }
    }
}

fn random_graphs(blocks: &mut Vec<Block>) {
    for i in 0..300 {
        let random = &mut Random(1000 + i);
        let n = 1 + random.node(12);
        let m = random.below(21);
        let nodes = usize::from(n);
        let edges = match i % 4 {
            // Anything.
            0 => (0..m)
                .map(|_| (random.node(nodes), random.node(nodes)))
                .collect(),
            // A forest over shuffled names, and at times one edge more, which may close an odd walk.
            1 => {
                let mut names: Vec<u16> = (0..n).collect();
                random.shuffle(&mut names);
                let mut edges = Vec::new();
                for v in 1..nodes {
                    if random.below(5) > 0 {
                        edges.push((names[v], names[random.below(v)]));
                    }
                }
                if i % 8 == 5 {
                    edges.push((random.node(nodes), random.node(nodes)));
                }
                edges
            }
            // Two sides, double edges allowed.
            2 => {
                let side: Vec<usize> = (0..n).map(|_| random.below(2)).collect();
                let ends: Edges = (0..3 * m)
                    .map(|_| (random.node(nodes), random.node(nodes)))
                    .collect();
                ends.into_iter()
                    .filter(|&(u, v)| side[usize::from(u)] != side[usize::from(v)])
                    .take(m)
                    .collect()
            }
            // Without loops and double edges.
            _ => simple(random, n, m),
        };
        let edges = mixed(random, &edges);
        let mut b = Block::of(n, &edges);
        b.every_call();
        let asked = [random.node(nodes + 1), random.node(nodes)];
        b.edges_at_own(&asked);
        b.edge_walk(asked[0], 0);
        b.edge_walk(asked[1], 0);
        if i % 10 == 9 {
            b.wrong_lengths();
        }
        let pairs = rules::pair_count(&b.edges());
        if i % 3 == 0 {
            b.line_graph(2 * pairs + 1 + random.below(9));
        } else if pairs > 0 {
            b.line_graph(2 * pairs - 1 - random.below(2 * pairs));
        }
        b.some_presets(random);
        blocks.push(b);
    }
    // Denser and larger ones, for long paths and wide fans.
    for i in 0..240 {
        let random = &mut Random(5000 + i);
        let n = if i < 200 {
            4 + random.node(12)
        } else {
            20 + random.node(21)
        };
        let most = usize::from(n) * usize::from(n - 1) / 2;
        let m = most / 3 + random.below(most - most / 3 + 1);
        let edges = simple(random, n, m);
        let mut b = Block::of(n, &edges);
        b.misra_gries(edges.len());
        if i % 5 == 0 {
            b.some_presets(random);
        }
        blocks.push(b);
    }
}

/// A list, coloured at random and with a way named at random: loops, double edges, 65,535 among the colours.
fn random_saved(random: &mut Random) -> Saved {
    let nodes = [3, 12, 512][random.below(3)];
    let m = random.below(13);
    let colors = [2, 5, 512, 65535][random.below(4)];
    let color = |random: &mut Random| match random.below(4) {
        0 => NONE,
        _ => random.below(colors) as u16,
    };
    Saved {
        nodes: nodes as u16,
        ends: (0..2 * m).map(|_| random.node(nodes)).collect(),
        colors: Some((0..m).map(|_| color(random)).collect()),
        method: Some(random.below(4) as u8),
    }
}

/// 01's example, coloured by Misra-Gries.
fn example_saved() -> Saved {
    Saved {
        nodes: 4,
        ends: vec![0, 1, 1, 2, 0, 2, 2, 3],
        colors: Some(vec![2, 1, 0, 2]),
        method: Some(3),
    }
}

/// The most edges, coloured.
fn most_saved() -> Saved {
    let edges = mixed(&mut Random(60_000), &bipartite(64, 64));
    Saved {
        nodes: 128,
        ends: flat(&edges),
        colors: Some((0..4096).map(|k| k % 67).collect()),
        method: Some(3),
    }
}

/// The writer: what is told, what is handed though it is not told, room that is short, and its checks in their order.
fn writing(blocks: &mut Vec<Block>) {
    let methods = [0, 1, 2, 3, 4, 255];
    let tags: Vec<u8> = (0..16)
        .chain([16, 20, 24, 28, 240, 243, 252, 255])
        .collect();
    let told = [0, COLORS_TOLD, METHOD_TOLD, COLORS_TOLD + METHOD_TOLD];

    let example = example_saved();
    let mut b = Block::new(4, &example.ends);
    let longer = [2, 1, NONE, 65534, 7];
    for colors in [&longer[..4], &longer[..3], &longer, &[]] {
        b.presets(colors.to_vec());
        for &tags in &tags {
            for method in methods {
                b.write_file(tags, method, 42);
            }
        }
        // The files have 24, 35 and 39 bytes.
        for tags in told {
            for output in [0, 1, 23, 24, 25, 34, 35, 36, 38, 39, 40, 300] {
                b.write_file(tags, 3, output);
            }
        }
        // 10 and 5 are due.
        b.write_file(12, 4, 0);
        b.write_file(8, 3, 0);
    }
    blocks.push(b);

    // No edges, and the least and the greatest ends; the files of the first have 8, 11 and 15 bytes.
    for n in [0, 1, 511, 512] {
        let mut b = Block::new(n, &[]);
        for colors in 0..2 {
            b.presets(vec![5; colors]);
            for tags in told {
                for output in [7, 8, 10, 11, 14, 15, 16] {
                    b.write_file(tags, 0, output);
                }
            }
        }
        blocks.push(b);
    }
    for n in [1, 2, 256, 257, 512] {
        let mut b = Block::new(n.into(), &[0, n - 1, n - 1, 0, n / 2, n - 1]);
        b.presets(vec![255, 256, NONE]);
        for tags in told {
            b.write_file(tags, 2, 40);
        }
        blocks.push(b);
    }

    // The most edges: 16,392, 24,587 and 24,591 bytes. Room that is one short, just enough, one more.
    let most = most_saved();
    let colors = most.colors.unwrap();
    let mut b = Block::new(128, &most.ends);
    for length in [4096, 4095, 4097] {
        let mut colors = colors.clone();
        colors.resize(length, 1);
        b.presets(colors);
        b.write_file(12, 1, 24590);
        b.write_file(12, 1, 24591);
        b.write_file(4, 1, 24586);
        if length == 4096 {
            b.write_file(12, 1, 24592);
            b.write_file(4, 1, 24587);
            b.write_file(0, 1, 16391);
        }
        if length == 4097 {
            b.write_file(0, 1, 16392);
        }
    }
    blocks.push(b);

    for i in 0..150 {
        let random = &mut Random(61_000 + i);
        let saved = random_saved(random);
        let mut b = Block::new(saved.nodes.into(), &saved.ends);
        let mut colors = saved.colors.clone().unwrap();
        if i % 10 == 9 {
            colors.push(0);
        }
        b.presets(colors);
        let length = saved.bytes().len();
        for tags in [12, random.below(256) as u8] {
            b.write_file(tags, saved.method.unwrap(), length + random.below(4));
        }
        b.write_file(4, 255, length - random.below(6));
        blocks.push(b);
    }
}

/// A file, how many ends and colours the reader is lent, and how many bytes the text.
struct FileCase {
    bytes: Vec<u8>,
    lists: Vec<(usize, usize)>,
    texts: Vec<usize>,
}

impl FileCase {
    /// Somewhat more than is needed.
    fn new(bytes: Vec<u8>) -> FileCase {
        let lists = match rules::read_file(&bytes) {
            Some(saved) => (
                saved.ends.len() + 2,
                saved.colors.map_or(1, |c| c.len() + 1),
            ),
            None => (8192, 4096),
        };
        FileCase {
            lists: vec![lists],
            texts: vec![(100 + 5 * bytes.len()).min(99000)],
            bytes,
        }
    }
}

/// Files that are right, and each way in which one can be broken.
fn files(random: &mut Random) -> Vec<FileCase> {
    let example = rules::file_bytes(4, &[0, 1, 1, 2, 0, 2, 2, 3]);
    let mut cases = vec![FileCase {
        // Ends too short by one, by all, just enough, too long; any colours.
        lists: vec![(8, 0), (7, 4), (0, 4), (9, 1), (8400, 8400)],
        texts: vec![39, 38, 0, 1, 7, 12, 40, 99000],
        bytes: example.clone(),
    }];
    let mut add = |bytes: Vec<u8>| cases.push(FileCase::new(bytes));
    // Cut at every place, the empty file first.
    for length in 0..example.len() {
        add(example[..length].to_vec());
    }
    // A byte too many, or a field.
    for more in [
        &[0][..],
        &[1],
        &[2],
        &[3, 0, 0],
        &[2, 0, 0],
        &[1, 2, 0, 4, 0],
        &[3, 8, 0, 0, 0, 1, 0, 2, 0, 0, 0],
        &[0; 4],
    ] {
        add([&example, more].concat());
    }
    // Every byte of the two heads, and n, changed.
    for place in 0..8 {
        for change in [1, 2, 3, 4, 16, 128, 255] {
            let mut bytes = example.clone();
            bytes[place] = bytes[place].wrapping_add(change);
            add(bytes);
        }
    }
    // Tags in the wrong order, twice, missing; fields without bytes.
    let (first, second) = example.split_at(5);
    for parts in [
        &[second, first][..],
        &[first, first, second],
        &[first, second, second],
        &[first],
        &[second],
        &[first, first],
        &[second, second],
        &[first, &[2, 0, 0]],
        &[&[1, 0, 0], second],
        &[&[1, 3, 0, 4, 0, 0], second],
        &[&[0, 0, 0], first, second],
    ] {
        add(parts.concat());
    }
    // A length that is no multiple of 4, the bytes being there.
    for more in 1..8 {
        let mut bytes = rules::file_bytes(4, &[0, 1, 1, 2]);
        bytes[6] += more;
        bytes.extend(vec![0; more.into()]);
        add(bytes);
    }
    // Graphs that the colouring refuses: n 513, end n, a loop, a double edge; and those at the limits.
    for (n, ends) in [
        (513, vec![0, 1]),
        (512, vec![511, 0]),
        (65535, vec![]),
        (0, vec![]),
        (0, vec![0, 0]),
        (3, vec![0, 1, 1, 3]),
        (3, vec![0, 1, 2, 2]),
        (3, vec![0, 1, 1, 2, 1, 0]),
        (2, vec![65535, 0]),
    ] {
        add(rules::file_bytes(n, &ends));
    }
    // The most edges, one more, and twice as many; the most edges and a byte.
    let most = flat(&mixed(random, &bipartite(64, 64)));
    add(rules::file_bytes(128, &most));
    add([&rules::file_bytes(128, &most)[..], &[0]].concat());
    add(rules::file_bytes(128, &[&most[..], &[0, 1]].concat()));
    add(rules::file_bytes(128, &[&most[..], &[0; 2]].concat()));
    add(rules::file_bytes(128, &[&most[..], &most].concat()));
    for n in [2, 8, 20, 91] {
        add(rules::file_bytes(n, &flat(&mixed(random, &complete(n)))));
    }
    for i in 0..40 {
        let n = 2 + random.node(20);
        let edges = simple(random, n, i);
        add(rules::file_bytes(n, &flat(&edges)));
    }
    cases
}

/// Files with colours and a method, and each way in which these can be broken.
fn saved_files() -> Vec<FileCase> {
    let example = example_saved();
    let all = example.bytes();
    // The fields, and where the files with the first so many of them end.
    let (first, rest) = all.split_at(5);
    let (second, rest) = rest.split_at(19);
    let (third, fourth) = rest.split_at(11);
    let fields = [first, second, third, fourth];
    let mut cases = Vec::new();
    for length in [24, 35, 39] {
        let lengths = [8, 7, 0, 9].map(|ends| [4, 3, 0, 5].map(|colors| (ends, colors)));
        cases.push(FileCase {
            lists: lengths.concat(),
            texts: vec![39, 38, 100],
            bytes: all[..length].to_vec(),
        });
    }
    let mut add = |bytes: Vec<u8>| cases.push(FileCase::new(bytes));

    // Cut at every place behind tag 2.
    for length in 24..all.len() {
        add(all[..length].to_vec());
    }
    // A byte too many, or a field.
    for more in [
        &[0][..],
        &[3],
        &[4],
        &[4, 0, 0],
        &[5, 0, 0],
        &[0; 3],
        &[1, 0, 0],
    ] {
        add([&all[..35], more].concat());
        add([&all, more].concat());
    }
    // Every tag changed.
    for place in [0, 5, 24, 35] {
        for tag in [0, 1, 2, 3, 4, 5, 6, 128, 254, 255] {
            let mut bytes = all.clone();
            bytes[place] = tag;
            add(bytes);
        }
    }
    // Every length changed, the bytes being as they were, and being so many.
    for (k, field) in fields.into_iter().enumerate() {
        let right = field.len() - 3;
        let other = [
            0,
            right - 1,
            right + 1,
            right.saturating_sub(2),
            right + 2,
            right.saturating_sub(4),
            right + 4,
            2 * right,
            right + 256,
            65535,
        ];
        for length in other {
            let mut changed = field.to_vec();
            changed[1..3].copy_from_slice(&(length as u16).to_le_bytes());
            for resized in [false, true] {
                if resized {
                    changed.resize(3 + length.min(600), 0);
                }
                let mut parts = fields;
                parts[k] = &changed;
                add(parts.concat());
            }
        }
        // The two bytes of the length exchanged.
        let mut changed = field.to_vec();
        changed.swap(1, 2);
        let mut parts = fields;
        parts[k] = &changed;
        add(parts.concat());
    }
    // How it was coloured.
    for method in (0..6).chain([7, 16, 127, 128, 131, 255]) {
        let mut bytes = all.clone();
        bytes[38] = method;
        add(bytes);
    }
    // Every row of up to four fields, twice or out of order or missing, and a fifth in each place.
    let mut rows = vec![Vec::new()];
    let mut from = 0;
    for _ in 0..4 {
        let to = rows.len();
        for row in from..to {
            for field in fields {
                let mut longer = rows[row].clone();
                longer.push(field);
                rows.push(longer);
            }
        }
        from = to;
    }
    let unknown = [0, 5, 255].map(|tag| [0, 1, 8].map(|length| field_bytes(tag, &vec![0; length])));
    let unknown = unknown.concat();
    let fifth = unknown.iter().map(Vec::as_slice).chain(fields);
    for more in fifth {
        for place in 0..5 {
            let mut row = fields.to_vec();
            row.insert(place, more);
            rows.push(row);
        }
    }
    for row in rows {
        add(row.concat());
    }
    // No edges; ends and colours that no list has, and graphs that the colouring refuses.
    let none = NONE;
    type Lists<'a> = &'a [(u16, &'a [u16], &'a [u16])];
    let lists: Lists = &[
        (0, &[], &[]),
        (512, &[], &[]),
        (513, &[0, 1], &[0]),
        (65535, &[65535, 65535], &[none]),
        (2, &[0, 1], &[none]),
        (2, &[0, 2], &[65534]),
        (3, &[0, 1, 1, 2, 2, 0], &[0, 0, 0]),
        (3, &[0, 1, 1, 1], &[255, 256]),
        (3, &[0, 1, 1, 0], &[60000, 1]),
    ];
    for &(nodes, ends, colors) in lists {
        let saved = Saved {
            nodes,
            ends: ends.to_vec(),
            colors: Some(colors.to_vec()),
            method: Some(1),
        };
        let bytes = saved.bytes();
        add(bytes[..bytes.len() - 4].to_vec());
        add(bytes);
    }
    for i in 0..80 {
        let mut saved = random_saved(&mut Random(62_000 + i));
        if i % 4 == 0 {
            saved.method = None;
        }
        add(saved.bytes());
    }

    // The longest file, with lists that are short by one, just enough, longer; a byte less and a byte more.
    let most = most_saved();
    let bytes = most.bytes();
    assert_eq!(bytes.len(), rules::LONGEST_FILE);
    cases.push(FileCase {
        lists: vec![(8192, 4096), (8191, 4096), (8192, 4095), (8193, 4097)],
        ..FileCase::new(bytes.clone())
    });
    let mut refused = |bytes: Vec<u8>| {
        assert!(rules::read_file(&bytes).is_none());
        cases.push(FileCase::new(bytes));
    };
    refused(bytes[..bytes.len() - 1].to_vec());
    refused([&bytes[..], &[0]].concat());
    // 4,097 edges with all tags; tags 1 and 2 alone with one and with many edges too many, shorter than the longest file.
    let mut more = most.clone();
    more.ends.extend([0, 1]);
    more.colors.as_mut().unwrap().push(0);
    refused(more.bytes());
    refused(rules::file_bytes(128, &more.ends));
    more.ends.resize(2 * 6145, 0);
    refused(rules::file_bytes(128, &more.ends));
    // Tag 3 where the edges are the most.
    let colors = Saved {
        method: None,
        ..most
    };
    cases.push(FileCase::new(colors.bytes()));
    cases
}

/// The Rust's colours of a list without loops and double edges.
fn rust_colors(n: u16, edges: &[(u16, u16)]) -> Vec<u16> {
    let mut graph = UnGraph::<(), ()>::default();
    for _ in 0..n {
        graph.add_node(());
    }
    for &(u, v) in edges {
        graph.add_edge(NodeIndex::new(u.into()), NodeIndex::new(v.into()), ());
    }
    let colors = misra_gries_edge_color(&graph);
    let color = |k| colors[&EdgeIndex::new(k)] as u16;
    (0..edges.len()).map(color).collect()
}

fn greatest_degree(n: u16, edges: &[(u16, u16)]) -> u16 {
    rules::greatest_degree(&rules::edges_of_nodes(n.into(), &flat(edges))) as u16
}

/// Colours for all edges but the last, from 0 to D, that no run need have made.
fn other_colors(random: &mut Random, n: u16, edges: &[(u16, u16)]) -> Vec<u16> {
    let greatest = greatest_degree(n, edges);
    let before = &edges[..edges.len() - 1];
    let found = (0..20).find_map(|_| proper_colors(random, before, greatest));
    found.unwrap_or_else(|| renamed(random, &rust_colors(n, before), greatest))
}

/// Every list of so many of these numbers.
fn all_of(numbers: &[u16], length: usize) -> Vec<Vec<u16>> {
    let mut lists = vec![Vec::new()];
    for _ in 0..length {
        let longer = |list: &Vec<u16>| {
            let list = list.clone();
            numbers
                .iter()
                .map(move |&number| [&list[..], &[number]].concat())
        };
        lists = lists.iter().flat_map(longer).collect();
    }
    lists
}

/// A late match: the last edge takes its colour, the others have theirs.
fn late(blocks: &mut Vec<Block>) {
    late_lists(blocks);
    late_checks(blocks);
    late_shapes(blocks);
    late_limits(blocks);
}

/// The documents' lists and small shapes, each edge late after the Rust's colours of those before; for some lists every
/// choice of stored colours up to D, and beyond.
fn late_lists(blocks: &mut Vec<Block>) {
    let random = &mut Random(70_000);
    let lists: [(u16, &[(u16, u16)]); 10] = [
        (3, &[(1, 2)]),
        (3, &[(0, 1), (0, 2)]),
        (3, &[(0, 1), (1, 2), (0, 2)]),
        (4, &[(0, 1), (1, 2), (2, 3)]),
        (4, &[(0, 1), (0, 2), (1, 2), (0, 3)]),
        (4, &[(0, 1), (1, 2), (0, 2), (2, 3)]),
        (5, &[(0, 1), (1, 2), (2, 3), (3, 4)]),
        (4, &[(0, 1), (2, 0), (1, 3), (0, 3)]),
        (4, &[(1, 0), (0, 2), (2, 1), (1, 3), (3, 0)]),
        (8, &[(7, 4), (5, 6), (7, 1), (5, 7), (3, 6), (6, 1)]),
    ];
    let mut graphs: Vec<(u16, Edges)> = lists.map(|(n, edges)| (n, edges.to_vec())).to_vec();
    for shape in [
        cycle(5),
        cycle(6),
        star(6),
        complete(4),
        complete(5),
        complete(6),
        bipartite(3, 3),
    ] {
        let n = shape.iter().map(|&(u, v)| u.max(v) + 1).max().unwrap();
        graphs.push((n, mixed(random, &shape)));
        graphs.push((n, shape));
    }
    for (n, edges) in graphs {
        for k in 0..edges.len() {
            let mut b = Block::of(n, &edges[..=k]);
            b.add_edge_to(&rust_colors(n, &edges[..k]));
            blocks.push(b);
        }
    }

    // D is 3, 3, 2, 3 and 3; the last edge makes it in the third and the fourth, where it was 1 and 2.
    let every: [(u16, &[(u16, u16)], &[u16]); 5] = [
        (4, &[(0, 1), (1, 2), (0, 2), (2, 3)], &[0, 1, 2, 3, 4, NONE]),
        (4, &[(1, 0), (0, 2), (2, 1), (1, 3), (3, 0)], &[0, 1, 2, 3]),
        (4, &[(0, 1), (2, 3), (1, 2)], &[0, 1, 2, 3, 65534, NONE]),
        (4, &[(0, 1), (2, 0), (0, 3)], &[0, 1, 2, 3, 4, NONE]),
        (6, &[(0, 1), (0, 2), (3, 0), (4, 5)], &[0, 1, 2, 3, 4, NONE]),
    ];
    for (n, edges, numbers) in every {
        let mut b = Block::of(n, edges);
        for stored in all_of(numbers, edges.len() - 1) {
            b.add_edge_to(&stored);
        }
        blocks.push(b);
    }
}

/// Lengths, loops and double edges, and stored colours that 11 refuses, alone and together.
fn late_checks(blocks: &mut Vec<Block>) {
    // No edge, one, and more; stored colours that are right as far as they go.
    let lists: [(u16, &[(u16, u16)], &[u16]); 7] = [
        (0, &[], &[]),
        (1, &[], &[]),
        (512, &[], &[]),
        (2, &[(0, 1)], &[]),
        (512, &[(511, 0)], &[]),
        (3, &[(0, 1), (1, 2)], &[2]),
        (4, &[(0, 1), (1, 2), (0, 2), (2, 3)], &[2, 1, 0]),
    ];
    for (n, edges, colors) in lists {
        let mut b = Block::of(n, edges);
        for length in 0..edges.len() + 3 {
            let mut stored = colors.to_vec();
            stored.resize(length, 0);
            b.presets(stored);
            for lent in 0..edges.len() + 3 {
                b.add_edge(lent);
            }
        }
        blocks.push(b);
    }

    // A loop, and a double edge, in each place; beside them colours that are proper without it, or that 11 refuses.
    let base = [(0, 1), (2, 1), (3, 0), (3, 4), (4, 2), (0, 4)];
    let colors = [0, 1, 1, 0, 2, 2];
    let mut add = |edges: Edges, colors: Vec<u16>| {
        let mut b = Block::of(5, &edges);
        let stored = &colors[..edges.len() - 1];
        b.add_edge_to(stored);
        b.presets([&stored[1..], &[NONE]].concat());
        b.add_edge(edges.len());
        b.add_edge(edges.len() - 1);
        blocks.push(b);
    };
    add(base.to_vec(), colors.to_vec());
    for place in 0..=base.len() {
        let loops = [(0, 0), (4, 4)];
        let doubles = base.iter().flat_map(|&(u, v)| [(u, v), (v, u)]);
        for inserted in loops.into_iter().chain(doubles) {
            let (mut edges, mut colors) = (base.to_vec(), colors.to_vec());
            edges.insert(place, inserted);
            colors.insert(place, 3);
            add(edges.clone(), colors.clone());
            if place == 2 {
                // Both 6 and 7.
                edges.push((2, 2));
                colors.push(0);
                add(edges, colors);
            }
        }
    }

    // At each place a colour above D, which is 3, and each colour that an edge beside it has.
    let edges = [(0, 1), (2, 1), (3, 0), (3, 4), (4, 2), (0, 4), (1, 3)];
    let stored = [0, 1, 1, 0, 2, 3];
    let mut b = Block::of(5, &edges);
    for place in 0..stored.len() {
        for color in [0, 1, 2, 3, 4, 5, 255, 256, 65534, NONE] {
            let mut changed = stored;
            changed[place] = color;
            b.add_edge_to(&changed);
        }
    }
    blocks.push(b);
}

/// Long paths, with each end that matters to the fan, and wide fans.
fn late_shapes(blocks: &mut Vec<Block>) {
    // 0 is the first end of the late edge (0, 3), with edges to 1, of colour 0, and to 2, of colour 1, which join the fan
    // one after the other. The path goes from 0 to 1 and on by colours 2, 0, 2. It ends at a node of its own, at 2 or at
    // 3.
    for length in [1, 2, 3, 4, 29, 30, 31, 32, 33, 100, 505] {
        for end in [None, Some(2), Some(3)] {
            let mut edges = Vec::new();
            let mut stored = Vec::new();
            let mut at = 1;
            for k in 0..length {
                let next = end.filter(|_| k + 1 == length).unwrap_or(4 + k);
                edges.push(if k % 3 == 0 { (at, next) } else { (next, at) });
                stored.push(if k % 2 == 0 { 2 } else { 0 });
                at = next;
            }
            // 1 stands before 2 among the edges at 0.
            edges.extend([(2, 0), (0, 1), (0, 3)]);
            stored.extend([1, 0]);
            let mut b = Block::of(4 + length, &edges);
            b.add_edge_to(&stored);
            blocks.push(b);
        }
    }

    let random = &mut Random(71_000);
    for n in [3, 32, 33, 34, 35, 512] {
        let edges = star(n);
        let mut b = Block::of(n, &edges);
        b.add_edge_to(&rust_colors(n, &edges[..edges.len() - 1]));
        for _ in 0..3 {
            b.add_edge_to(&other_colors(random, n, &edges));
        }
        blocks.push(b);
    }

    for i in 0..250 {
        let random = &mut Random(72_000 + i);
        let n = 3 + random.node(if i % 10 == 9 { 24 } else { 9 });
        let most = usize::from(n) * usize::from(n - 1) / 2;
        let m = 1 + random.below(most);
        let edges = simple(random, n, m);
        let mut b = Block::of(n, &edges);
        let stored = other_colors(random, n, &edges);
        b.add_edge_to(&stored);
        b.add_edge_to(&rust_colors(n, &edges[..m - 1]));
        // One colour changed: it may still do.
        if m > 1 {
            let mut changed = stored;
            changed[random.below(m - 1)] =
                random.below(usize::from(greatest_degree(n, &edges)) + 2) as u16;
            b.add_edge_to(&changed);
        }
        blocks.push(b);
    }
}

/// The greatest complete graph, and 512 nodes with 4,096 edges.
fn late_limits(blocks: &mut Vec<Block>) {
    let random = &mut Random(73_000);
    for (n, edges) in [
        (20, complete(20)),
        (91, mixed(random, &complete(91))),
        (512, simple(random, 512, 4096)),
    ] {
        let m = edges.len();
        let (last, greatest) = (m - 2, greatest_degree(n, &edges));
        let rust = rust_colors(n, &edges[..m - 1]);
        let mut b = Block::of(n, &edges);
        b.add_edge_to(&rust);
        b.add_edge(m - 1);
        b.add_edge(m + 1);
        b.add_edge_to(&renamed(random, &rust, greatest));
        b.add_edge_to(&rust[..last]);
        b.add_edge_to(&[&rust[..], &[0]].concat());
        let mut changed = rust.clone();
        changed[last] = NONE;
        b.add_edge_to(&changed);
        changed[last] = greatest + 1;
        b.add_edge_to(&changed);
        // The colour of the first edge before it at the same node.
        let (u, v) = edges[last];
        let beside = edges
            .iter()
            .position(|&(a, b)| a == u || a == v || b == u || b == v);
        changed[last] = rust[beside.unwrap()];
        b.add_edge_to(&changed);
        blocks.push(b);
    }
}

/// Two lists, and how many of their first numbers count.
struct TwoLists {
    first: Vec<u16>,
    second: Vec<u16>,
    m: usize,
}

/// So many different colours, each so much above the one before, the last again and again up to a length.
fn stepped(from: u16, step: u16, count: usize, length: usize) -> Vec<u16> {
    let last = count as u16 - 1;
    (0..length as u16)
        .map(|place| from + place.min(last) * step)
        .collect()
}

/// Lists to choose between.
fn lists_to_choose() -> Vec<TwoLists> {
    let mut cases = Vec::new();
    small_lists(&mut cases);
    lengths_of_lists(&mut cases);
    days_of_lists(&mut cases);
    for i in 0..500 {
        let random = &mut Random(81_000 + i);
        let most = match i % 50 {
            49 => 1000,
            40..=48 => 80,
            _ => 24,
        };
        let (first, second, m) = two_lists(random, most);
        cases.push(TwoLists { first, second, m });
    }
    long_lists(&mut cases);
    cases
}

/// All lists of up to two numbers, with every m up to one too many; all lists of three.
fn small_lists(cases: &mut Vec<TwoLists>) {
    let mut add_pairs = |lists: &[Vec<u16>], m: usize| {
        for first in lists {
            for second in lists {
                let (first, second) = (first.clone(), second.clone());
                cases.push(TwoLists { first, second, m });
            }
        }
    };
    let up_to_two = [0, 1, 2].map(|length| all_of(&[0, 7, NONE], length));
    for m in 0..=3 {
        add_pairs(&up_to_two.concat(), m);
    }
    add_pairs(&all_of(&[65534, 2, NONE], 3), 3);
}

/// Every m about the lengths, and such as are small numbers if they are cut to 16, 32 or 63 bits.
fn lengths_of_lists(cases: &mut Vec<TwoLists>) {
    let about = [0, 1 << 16, 1 << 32, 1 << 63].map(|high| [3, 4, 5, 6].map(|low| high + low));
    for m in about.concat().into_iter().chain([usize::MAX]) {
        for (first, second) in [(4, 5), (5, 4), (5, 5)] {
            cases.push(TwoLists {
                first: stepped(0, 1, 3, first),
                second: stepped(9, 0, 1, second),
                m,
            });
        }
    }
}

/// As many days and one fewer, wherever the colours lie: from 0 on or beyond 64 or 4,096, near each other or far apart. Long lists
/// are only compared with those of the same place.
fn days_of_lists(cases: &mut Vec<TwoLists>) {
    let places = [
        (0, 1),
        (61, 1),
        (62, 1),
        (63, 1),
        (64, 1),
        (4093, 1),
        (4094, 1),
        (4095, 1),
        (4096, 1),
        (65532, 1),
        (0, 32),
        (1, 32),
        (0, 2047),
        (0, 2048),
        (3, 4095),
        (3, 4096),
        (3, 4097),
        (3, 16383),
        (3, 16384),
        (3, 16385),
        (0, 32767),
    ];
    let mut add = |place: (u16, u16), other: (u16, u16), m: usize| {
        for (count, other_count) in [(3, 3), (3, 2), (2, 3)] {
            cases.push(TwoLists {
                first: stepped(place.0, place.1, count, m),
                second: stepped(other.0, other.1, other_count, m),
                m,
            });
        }
    };
    for place in places {
        for other in places {
            add(place, other, 4);
        }
        for m in [64, 65] {
            add(place, place, m);
        }
    }
}

/// As many different colours as there are matches, and one fewer; 65,535 at the end of either, and beyond the m.
fn long_lists(cases: &mut Vec<TwoLists>) {
    let random = &mut Random(82_000);
    let mut first: Vec<u16> = (0..4096).map(|k| 65534 - 16 * k).collect();
    random.shuffle(&mut first);
    let mut second: Vec<u16> = (0..4096).collect();
    random.shuffle(&mut second);
    let mut add = |first: &[u16], second: &[u16], m: usize| {
        cases.push(TwoLists {
            first: first.to_vec(),
            second: second.to_vec(),
            m,
        });
    };
    add(&first, &second, 4096);
    second[4095] = second[0];
    add(&first, &second, 4096);
    add(&first, &second, 4095);
    add(&first, &second, 4097);
    second[4095] = NONE;
    add(&first, &second, 4096);
    add(&second, &first, 4096);
    add(&[7; 8400], &[65534; 8400], 8400);
}

fn main() {
    let chosen: Vec<Family> = std::env::args()
        .skip(1)
        .map(|name| Family::named(&name).unwrap_or_else(|| panic!("no family {name:?}")))
        .collect();

    let mut blocks = Vec::new();
    let random = &mut Random(1);
    limits(random, &mut blocks);
    orders(&mut blocks);
    shapes(random, &mut blocks);
    presets_by_hand(&mut blocks);
    gaps(&mut blocks);
    loops_and_doubles(&mut blocks);
    random_graphs(&mut blocks);
    writing(&mut blocks);
    late(&mut blocks);

    let mut out = std::io::BufWriter::new(std::io::stdout().lock());
    for block in &blocks {
        let mut graph_due = true;
        let mut presets_due = None;
        for line in &block.lines {
            match line {
                Line::Presets(presets) => presets_due = Some(presets),
                Line::Call {
                    family,
                    asks_presets,
                    text,
                } if chosen.contains(family) => {
                    if std::mem::take(&mut graph_due) {
                        writeln!(out, "graph {} {}", block.n, words(&block.ends)).unwrap();
                    }
                    if *asks_presets {
                        if let Some(presets) = presets_due.take() {
                            writeln!(out, "presets {}", words(presets)).unwrap();
                        }
                    }
                    writeln!(out, "{text}").unwrap();
                }
                Line::Call { .. } => {}
            }
        }
    }
    if chosen.contains(&Family::File) {
        for case in files(random).into_iter().chain(saved_files()) {
            writeln!(out, "file {}", words(&case.bytes)).unwrap();
            for (ends, colors) in case.lists {
                writeln!(out, "read_graph_file {ends} {colors}").unwrap();
            }
            for length in case.texts {
                writeln!(out, "matchdays {length}").unwrap();
            }
        }
    }
    if chosen.contains(&Family::FewerDays) {
        for TwoLists { first, second, m } in lists_to_choose() {
            writeln!(out, "fewer_days {m} {} {}", words(&first), words(&second)).unwrap();
        }
    }
    out.flush().unwrap();
}
