//! All small graphs.

use rustworkx_core::rules::NONE;
use rustworkx_core::shapes::{complete, flat, Edges};

use crate::models::orders;
use crate::published::Graph;
use crate::question::Call;
use crate::tally::Tally;

/// Every list of so many numbers below the bound.
pub fn all_numbers(bound: usize, length: usize) -> impl Iterator<Item = Vec<usize>> {
    let count = bound.pow(length as u32);
    (0..count).map(move |mut code| {
        let digit = |_| {
            let digit = code % bound;
            code /= bound;
            digit
        };
        (0..length).map(digit).collect()
    })
}

/// Every end list of m edges over n nodes: all orders, both turns, loops and double edges.
pub fn all_lists(n: usize, m: usize) -> impl Iterator<Item = Vec<u16>> {
    let lists = all_numbers(n, 2 * m);
    lists.map(|list| list.into_iter().map(|end| end as u16).collect())
}

/// Every list of presets out of none, 0, 1 and 2.
pub fn all_presets(length: usize) -> impl Iterator<Item = Vec<u16>> {
    let lists = all_numbers(4, length);
    lists.map(|list| list.into_iter().map(|i| [NONE, 0, 1, 2][i]).collect())
}

/// Every graph without loops and double edges over n nodes, its edges in one order.
pub fn all_simple(n: u16) -> impl Iterator<Item = Edges> {
    let edges = complete(n);
    let subsets = 0..1_u32 << edges.len();
    subsets.map(move |subset| {
        let chosen = (0..edges.len()).filter(|&k| subset >> k & 1 == 1);
        chosen.map(|k| edges[k]).collect()
    })
}

/// The edges turned as the bits say.
pub fn turned(edges: &[(u16, u16)], bits: u32) -> Edges {
    let edges = edges.iter().enumerate();
    edges
        .map(|(k, &(u, v))| if bits >> k & 1 == 1 { (v, u) } else { (u, v) })
        .collect()
}

fn lists(tally: &mut Tally) {
    // Nodes, and the most edges.
    for (n, most) in [(0, 0), (1, 8), (2, 7), (3, 6), (4, 4), (5, 3)] {
        for m in 0..=most {
            for ends in all_lists(n, m) {
                tally.ask_every_call(&Graph::new(n, ends));
            }
        }
    }
    tally.end_part(
        "all lists, loops and double edges allowed: 1 node and up to 8 edges, 2 and 7, 3 and 6, 4 and 4, 5 and 3",
        "",
    );
}

fn presets(tally: &mut Tally) {
    for (n, most) in [(1, 3), (2, 3), (3, 3)] {
        for m in 0..=most {
            for ends in all_lists(n, m) {
                let graph = Graph::new(n, ends);
                tally.graph();
                for presets in all_presets(n) {
                    tally.ask_node_presets(&graph, &presets);
                }
                for presets in all_presets(m) {
                    tally.ask_edge_presets(&graph, &presets);
                }
            }
        }
    }
    tally.end_part(
        "all presets out of none, 0, 1, 2 for all lists of up to 3 nodes and 3 edges",
        "",
    );
}

fn simple_graphs(tally: &mut Tally) {
    for n in 0..=6 {
        for edges in all_simple(n) {
            tally.ask_every_call(&Graph::new(n.into(), flat(&edges)));
        }
    }
    tally.end_part("all simple graphs of up to 6 nodes, in one order", "");
}

fn simple_orders(tally: &mut Tally) {
    for edges in all_simple(5).filter(|edges| edges.len() <= 4) {
        for order in orders(&edges) {
            for bits in 0..1 << edges.len() {
                tally.ask_every_call(&Graph::new(5, flat(&turned(&order, bits))));
            }
        }
    }
    tally.end_part(
        "all simple graphs of 5 nodes with up to 4 edges, in all orders, turned all ways",
        "",
    );
}

/// More nodes than the other calls get.
fn misra_gries_graphs(tally: &mut Tally) {
    for edges in all_simple(7) {
        tally.graph();
        let graph = Graph::new(7, flat(&edges));
        tally.ask_plain(&graph, Call::MisraGries, graph.m());
    }
    tally.end_part(
        "misra_gries_edge_color: all simple graphs of 7 nodes, in one order",
        "",
    );
}

/// Every order of more edges, for the call whose answer depends most on it.
fn misra_gries_orders(tally: &mut Tally) {
    for edges in all_simple(4).filter(|edges| edges.len() >= 5) {
        for order in orders(&edges) {
            for bits in 0..1 << edges.len() {
                tally.graph();
                let graph = Graph::new(4, flat(&turned(&order, bits)));
                tally.ask_plain(&graph, Call::MisraGries, graph.m());
            }
        }
    }
    tally.end_part(
        "misra_gries_edge_color: all simple graphs of 4 nodes with 5 or 6 edges, in all orders, turned all ways",
        "",
    );
}

pub fn run(tally: &mut Tally) {
    lists(tally);
    presets(tally);
    simple_graphs(tally);
    simple_orders(tally);
    misra_gries_orders(tally);
    misra_gries_graphs(tally);
}
