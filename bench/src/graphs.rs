//! The graphs that are measured.

use std::collections::HashSet;

use wulgranite::NONE;

/// The days on which every tenth node or edge is preset.
#[derive(Clone, Copy)]
enum Preset {
    Nothing,
    /// 0 to 63, again and again.
    Small,
    /// From 0 to 65,534 in equal steps, each day once.
    Large,
    /// The first alone, on 65,534.
    Last,
}

#[derive(Clone)]
pub struct Graph {
    pub name: String,
    pub n: usize,
    pub ends: Vec<u16>,
    preset: Preset,
}

impl Graph {
    fn new(name: &str, n: usize, edges: impl IntoIterator<Item = (usize, usize)>) -> Self {
        let ends = edges.into_iter().flat_map(|(u, v)| [u as u16, v as u16]);
        Graph {
            name: name.to_string(),
            n,
            ends: ends.collect(),
            preset: Preset::Nothing,
        }
    }

    fn with(&self, preset: Preset, days: &str) -> Self {
        Graph {
            name: format!("{}, {days}", self.name),
            preset,
            ..self.clone()
        }
    }

    /// The graph without presets, and beside it with them.
    fn and_with_presets(self) -> Vec<Self> {
        let small = self.with(Preset::Small, "presets below 64");
        let large = self.with(Preset::Large, "presets to 65,534");
        vec![self, small, large]
    }

    /// A preset for each of so many nodes or edges, or none.
    pub fn presets(&self, count: usize) -> Vec<u16> {
        let last = (count.max(1) - 1) / 10;
        let day = |k: usize| match self.preset {
            Preset::Nothing => NONE,
            Preset::Small => (k % 64) as u16,
            Preset::Large => (k * 65534 / last.max(1)) as u16,
            Preset::Last if k == 0 => 65534,
            Preset::Last => NONE,
        };
        let preset = |i| if i % 10 == 0 { day(i / 10) } else { NONE };
        (0..count).map(preset).collect()
    }

    pub fn edge_count(&self) -> usize {
        self.ends.len() / 2
    }

    /// The number of edges at each node; the graphs here have no loops.
    pub fn degrees(&self) -> Vec<usize> {
        let mut degrees = vec![0; self.n];
        for &end in &self.ends {
            degrees[usize::from(end)] += 1;
        }
        degrees
    }

    /// How many pairs the line list has.
    pub fn pair_count(&self) -> usize {
        let pairs = |d: usize| d * d.saturating_sub(1) / 2;
        self.degrees().into_iter().map(pairs).sum()
    }
}

/// Every node joined to every other.
fn complete(name: &str, n: usize) -> Graph {
    let edges = (0..n).flat_map(|u| (u + 1..n).map(move |v| (u, v)));
    Graph::new(name, n, edges)
}

/// The first nodes joined to all others; one hub makes a star.
fn hubs(name: &str, n: usize, hubs: usize) -> Graph {
    let edges = (0..hubs).flat_map(|u| (u + 1..n).map(move |v| (u, v)));
    Graph::new(name, n, edges)
}

fn bipartite(name: &str, side: usize) -> Graph {
    let edges = (0..side).flat_map(|u| (0..side).map(move |v| (u, side + v)));
    Graph::new(name, 2 * side, edges)
}

/// Random numbers by SplitMix64, so that the graph is the same on each machine.
fn random_numbers(mut state: u64) -> impl FnMut() -> u64 {
    move || {
        state = state.wrapping_add(0x9e37_79b9_7f4a_7c15);
        let mut z = state;
        z = (z ^ (z >> 30)).wrapping_mul(0xbf58_476d_1ce4_e5b9);
        z = (z ^ (z >> 27)).wrapping_mul(0x94d0_49bb_1331_11eb);
        z ^ (z >> 31)
    }
}

fn random_simple(name: &str, n: usize, m: usize, seed: u64) -> Graph {
    let mut next = random_numbers(seed);
    let mut seen = HashSet::new();
    let mut edges = Vec::new();
    while edges.len() < m {
        let (u, v) = ((next() % n as u64) as usize, (next() % n as u64) as usize);
        if u != v && seen.insert((u.min(v), u.max(v))) {
            edges.push((u, v));
        }
    }
    Graph::new(name, n, edges)
}

/// Each node joined to the next.
fn path(name: &str, n: usize) -> Graph {
    Graph::new(name, n, (1..n).map(|v| (v - 1, v)))
}

/// Two nodes an edge, none twice.
fn separate(name: &str, m: usize) -> Graph {
    Graph::new(name, 2 * m, (0..m).map(|k| (2 * k, 2 * k + 1)))
}

/// Nodes whose numbers differ in one bit.
fn cube(name: &str, dimensions: usize) -> Graph {
    let n = 1 << dimensions;
    let edges = (0..n).flat_map(|u| (0..dimensions).map(move |b| (u, u ^ (1 << b))));
    Graph::new(name, n, edges.filter(|(u, v)| u < v))
}

/// For a call that takes presets, some of the graphs have them too.
pub fn simple_graphs(presets: bool) -> Vec<Graph> {
    let too = |graph: Graph| match presets {
        true => graph.and_with_presets(),
        false => vec![graph],
    };
    [
        vec![Graph::new("no edge, 2 nodes", 2, [])],
        vec![Graph::new("no edge, 512 nodes", 512, [])],
        vec![complete("one edge", 2)],
        vec![complete("K_4", 4)],
        vec![complete("K_6", 6)],
        vec![complete("K_10", 10)],
        too(complete("league of 20 (K_20)", 20)),
        too(complete("K_64", 64)),
        vec![complete("K_91", 91)],
        too(random_simple("random, 512 nodes", 512, 4096, 1)),
        vec![hubs("star of 512", 512, 1)],
        vec![hubs("8 hubs of 512", 512, 8)],
        vec![bipartite("bipartite, 64 by 64", 64)],
        vec![path("path of 512", 512)],
        vec![separate("256 separate edges", 256)],
        vec![cube("cube of 9 dimensions", 9)],
        vec![random_simple(
            "random, 512 nodes, 1,536 edges",
            512,
            1536,
            1,
        )],
    ]
    .concat()
}

/// A small list for the stack, on whose first node or edge the last day is preset.
pub fn small_graph() -> Graph {
    complete("K_6", 6).with(Preset::Last, "first preset on 65,534")
}

/// The largest graphs for the stack.
pub fn largest_graphs() -> Vec<Graph> {
    vec![
        random_simple("random, 512 nodes", 512, 4096, 1).with(Preset::Large, "presets to 65,534"),
        bipartite("bipartite, 64 by 64", 64).with(Preset::Large, "presets to 65,534"),
    ]
}

/// The line graph of this one has 16.8 million pairs.
pub fn double_edges() -> Graph {
    Graph::new("4,096 between two nodes", 2, (0..4096).map(|_| (0, 1)))
}
