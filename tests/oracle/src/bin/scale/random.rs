//! Random graphs of many shapes from fixed seeds, and the limits.

use rustworkx_core::rules::NONE;
use rustworkx_core::shapes::{
    bipartite, complete, cycle, flat, mixed, path, simple, star, Edges, Random,
};

use crate::published::{set_seed, Graph};
use crate::question::Call;
use crate::tally::Tally;

/// Any edges: loops and double edges too.
fn any(random: &mut Random, n: usize, m: usize) -> Edges {
    (0..m).map(|_| (random.node(n), random.node(n))).collect()
}

/// A forest over shuffled names, and a few edges more.
fn forest(random: &mut Random, n: usize) -> Edges {
    let mut names: Vec<u16> = (0..n as u16).collect();
    random.shuffle(&mut names);
    let mut edges = Vec::new();
    for v in 1..n {
        if random.below(6) > 0 {
            edges.push((names[v], names[random.below(v)]));
        }
    }
    for _ in 0..random.below(3) {
        edges.push((random.node(n), random.node(n)));
    }
    edges
}

/// Edges between two sides, a double edge now and then.
fn two_sides(random: &mut Random, n: usize, m: usize) -> Edges {
    let side: Vec<usize> = (0..n).map(|_| random.below(2)).collect();
    let mut edges = any(random, n, 2 * m);
    edges.retain(|&(u, v)| side[usize::from(u)] != side[usize::from(v)]);
    edges
}

/// Few nodes that have most of the edges.
fn hubs(random: &mut Random, n: usize) -> Edges {
    let hubs: Vec<u16> = (0..1 + random.below(3)).map(|_| random.node(n)).collect();
    let mut edges = Vec::new();
    for v in 0..n as u16 {
        for &hub in &hubs {
            if random.below(5) > 0 {
                edges.push((hub, v));
            }
        }
    }
    edges
}

/// Every node joined to those at a few distances around a ring: all degrees are equal, so ties abound.
fn ring(random: &mut Random, n: usize) -> Edges {
    let mut edges = Vec::new();
    for _ in 0..1 + random.below(3) {
        let distance = 1 + random.below(n);
        edges.extend((0..n).map(|v| (v as u16, ((v + distance) % n) as u16)));
    }
    edges
}

/// Small complete graphs and cycles side by side, their nodes interleaved.
fn side_by_side(random: &mut Random, n: usize) -> Edges {
    let stride = 1 + random.below(4);
    let each = (n / stride) as u16;
    let mut edges = Vec::new();
    for part in 0..stride as u16 {
        let shape = match random.below(3) {
            0 if each > 0 => cycle(each),
            1 => complete(each.min(6)),
            _ => path(each),
        };
        let place = |v: u16| v * stride as u16 + part;
        edges.extend(shape.into_iter().map(|(u, v)| (place(u), place(v))));
    }
    edges
}

/// Every edge once or more, without loops.
fn doubled(random: &mut Random, n: usize, m: usize) -> Edges {
    let mut edges = simple(random, n as u16, m);
    for _ in 0..random.below(m + 1) {
        if !edges.is_empty() {
            edges.push(edges[random.below(edges.len())]);
        }
    }
    edges
}

/// A graph with up to so many nodes; the shape goes round.
pub fn random_graph(random: &mut Random, shape: u64, most: usize) -> Graph {
    let n = random.below(most + 1);
    if n == 0 {
        return Graph::new(0, Vec::new());
    }
    let pairs = n * (n - 1) / 2;
    let edges = match shape % 10 {
        0 => {
            let m = random.below(2 * n + 1);
            any(random, n, m)
        }
        1 => {
            let m = random.below(n + 1);
            simple(random, n as u16, m)
        }
        2 => {
            // Dense, so of fewer nodes.
            let n = 1 + n / 2;
            let pairs = n * (n - 1) / 2;
            let m = pairs / 2 + random.below(pairs / 2 + 1);
            simple(random, n as u16, m)
        }
        3 => two_sides(random, n, 2 * n),
        4 => forest(random, n),
        5 => hubs(random, n),
        6 => ring(random, n),
        7 => side_by_side(random, n),
        8 => {
            let m = random.below(n + 1);
            doubled(random, n, m)
        }
        _ => {
            let m = random.below(pairs.min(3 * n) + 1);
            simple(random, n as u16, m)
        }
    };
    let mut edges = if random.below(4) == 0 {
        edges
    } else {
        mixed(random, &edges)
    };
    edges.truncate(4096);
    Graph::new(n, flat(&edges))
}

/// Some places preset: often out of few colours, so that equal ones meet, now and then out of all.
pub fn random_presets(random: &mut Random, length: usize) -> Vec<u16> {
    let share = 1 + random.below(8);
    let colors = [3, 8, 65535][random.below(3)];
    let place = |_| {
        if random.below(share) == 0 {
            random.below(colors) as u16
        } else {
            NONE
        }
    };
    (0..length).map(place).collect()
}

/// Some places preset, no two alike.
pub fn different_presets(random: &mut Random, length: usize) -> Vec<u16> {
    let mut colors: Vec<u16> = (0..7).chain([65534]).collect();
    random.shuffle(&mut colors);
    let mut presets = vec![NONE; length];
    if length > 0 {
        for color in colors.into_iter().take(random.below(8)) {
            presets[random.below(length)] = color;
        }
    }
    presets
}

fn ask_with_presets(tally: &mut Tally, random: &mut Random, graph: &Graph) {
    for make in [random_presets, different_presets] {
        tally.ask_node_presets(graph, &make(random, graph.n));
        tally.ask_edge_presets(graph, &make(random, graph.m()));
    }
}

fn graphs(tally: &mut Tally) {
    for i in 0..120_000 {
        let random = &mut Random(1_000_000 + i);
        let graph = random_graph(random, i, 40);
        // No answer may depend on the hash; the queue goes on choosing the lowest.
        foldhash::set_seed(i);
        tally.ask_every_call(&graph);
        ask_with_presets(tally, random, &graph);
    }
    set_seed(0);
    tally.end_part("random graphs of up to 40 nodes", "");
}

fn larger_graphs(tally: &mut Tally) {
    for i in 0..400 {
        let random = &mut Random(2_000_000 + i);
        let graph = random_graph(random, i, 40 + i as usize);
        tally.ask_every_call(&graph);
        ask_with_presets(tally, random, &graph);
    }
    tally.end_part("random graphs of up to 439 nodes", "");
}

/// Eight nodes, each joined to all others.
fn eight_hubs(n: u16) -> Edges {
    let hubs = 0..8;
    hubs.flat_map(|hub| (hub + 1..n).map(move |v| (hub, v)))
        .collect()
}

/// The graphs at the limits, in the given order.
pub fn limit_graphs(random: &mut Random) -> Vec<(u16, Edges)> {
    let far_star = star(512).into_iter().map(|(_, v)| (v - 1, 511)).collect();
    vec![
        (0, Vec::new()),
        (512, Vec::new()),
        (512, path(512)),
        (512, cycle(512)),
        (511, cycle(511)),
        (512, star(512)),
        (512, far_star),
        (91, complete(91)),
        (128, bipartite(64, 64)),
        (512, bipartite(8, 504)),
        (512, eight_hubs(512)),
        (512, simple(random, 512, 4096)),
        (512, simple(random, 512, 4096)),
        (100, simple(random, 100, 4096)),
        (512, any(random, 512, 4096)),
        (256, any(random, 256, 4096)),
        (512, ring(random, 512)),
        (512, forest(random, 512)),
    ]
}

/// Each order in which a graph at the limits is asked: as given, back to front and turned, and shuffled twice.
pub fn limit_orders(random: &mut Random, edges: &[(u16, u16)]) -> Vec<Edges> {
    let back = edges.iter().rev().map(|&(u, v)| (v, u)).collect();
    vec![
        edges.to_vec(),
        back,
        mixed(random, edges),
        mixed(random, edges),
    ]
}

fn limits(tally: &mut Tally) {
    let random = &mut Random(3_000_000);
    for (n, edges) in limit_graphs(random) {
        for edges in limit_orders(random, &edges) {
            let graph = Graph::new(n.into(), flat(&edges));
            tally.ask_every_call(&graph);
            ask_with_presets(tally, random, &graph);
        }
    }
    tally.end_part("limits, in four orders each", "");
}

/// 4,096 edges between two nodes, and 4,096 loops at one: the line graphs have 16,773,120 and 8,386,560 pairs.
fn most_pairs(tally: &mut Tally) {
    let double: Vec<u16> = (0..8192).map(|place| place % 2).collect();
    tally.ask_every_call(&Graph::new(2, double));
    tally.ask_every_call(&Graph::new(1, vec![0; 8192]));
    // Both, and turned at random, with presets.
    let random = &mut Random(4_000_000);
    let graph = Graph::new(2, flat(&any(random, 2, 1024)));
    tally.ask_every_call(&graph);
    ask_with_presets(tally, random, &graph);
    tally.end_part("the longest line lists", "");
}

/// Dense graphs, for wide fans and long paths.
fn misra_gries(tally: &mut Tally) {
    for i in 0..40_000 {
        let random = &mut Random(5_000_000 + i);
        let n = 4 + random.node(if i % 50 == 0 { 60 } else { 16 });
        let pairs = usize::from(n) * usize::from(n - 1) / 2;
        let m = pairs / 3 + random.below(pairs - pairs / 3 + 1);
        let graph = Graph::new(n.into(), flat(&simple(random, n, m)));
        tally.graph();
        tally.ask_plain(&graph, Call::MisraGries, m);
    }
    tally.end_part("misra_gries_edge_color: dense random graphs", "");
}

pub fn run(tally: &mut Tally) {
    graphs(tally);
    larger_graphs(tally);
    misra_gries(tally);
    limits(tally);
    most_pairs(tally);
}
