//! Refusals: every number that a call has, the order of the checks, and that nothing lent is changed.

use rustworkx_core::rules::NONE;
use rustworkx_core::shapes::{flat, simple, Random};

use crate::published::Graph;
use crate::question::{Call, Question};
use crate::random::random_graph;
use crate::tally::Tally;

const CALLS: [Call; 16] = [
    Call::Incidence,
    Call::TwoColor,
    Call::LineGraph,
    Call::NodeColor,
    Call::NodeColorPreset,
    Call::NodeColorStrategy(0),
    Call::NodeColorStrategy(1),
    Call::NodeColorStrategy(2),
    Call::NodeColorStrategy(3),
    Call::EdgeColor,
    Call::EdgeColorStrategy(0),
    Call::EdgeColorStrategy(1),
    Call::EdgeColorStrategy(2),
    Call::EdgeColorStrategy(3),
    Call::MisraGries,
    Call::AddEdge,
];

/// The numbers by which a call can refuse, beside 1 to 4.
fn own_numbers(call: Call) -> &'static [u32] {
    match call {
        Call::TwoColor => &[5, 8],
        Call::LineGraph => &[9],
        Call::MisraGries => &[5, 6, 7],
        Call::AddEdge => &[5, 6, 7, 11],
        Call::NodeColorStrategy(3..) | Call::EdgeColorStrategy(3..) => &[5, 255],
        _ => &[5],
    }
}

/// The lengths of what a call is handed: presets, lent numbers, entries.
#[derive(Clone, Copy)]
struct Lengths {
    presets: usize,
    lent: usize,
    entries: usize,
}

/// The lengths that a call asks for where there are n nodes and m edges.
fn fitting(call: Call, n: usize, m: usize, pairs: usize) -> Lengths {
    let (presets, lent, entries) = match call {
        Call::Incidence => (0, n + 1, 2 * m),
        Call::TwoColor | Call::NodeColor => (0, n, 0),
        Call::LineGraph => (0, 2 * pairs, 0),
        Call::NodeColorPreset | Call::NodeColorStrategy(_) => (n, n, 0),
        Call::EdgeColor | Call::MisraGries => (0, m, 0),
        Call::EdgeColorStrategy(_) => (m, m, 0),
        Call::AddEdge => (m.saturating_sub(1), m, 0),
    };
    Lengths {
        presets,
        lent,
        entries,
    }
}

fn ask(tally: &mut Tally, graph: &Graph, call: Call, lengths: Lengths) {
    let question = Question {
        call,
        presets: &vec![NONE; lengths.presets],
        lent: lengths.lent,
        entries: lengths.entries,
    };
    tally.ask(graph, question);
}

/// Lengths that are off by one or more, either way.
pub fn around(right: usize) -> Vec<usize> {
    let mut lengths = vec![
        right,
        right + 1,
        right + 7,
        right.saturating_sub(1),
        right / 2,
        0,
    ];
    lengths.sort_unstable();
    lengths.dedup();
    lengths
}

/// Every call, with every choice of right and wrong lengths.
fn ask_all_lengths(tally: &mut Tally, graph: &Graph) {
    tally.graph();
    for call in CALLS {
        let right = fitting(call, graph.n, graph.m(), graph.pair_count());
        for presets in around(right.presets) {
            for lent in around(right.lent) {
                // Only incidence is handed entries.
                let more = match call {
                    Call::Incidence => around(right.entries),
                    _ => vec![0],
                };
                for entries in more {
                    let lengths = Lengths {
                        presets,
                        lent,
                        entries,
                    };
                    ask(tally, graph, call, lengths);
                }
            }
        }
    }
}

fn wrong_lengths(tally: &mut Tally) {
    for i in 0..400 {
        let random = &mut Random(10_000_000 + i);
        let graph = random_graph(random, i, 12);
        ask_all_lengths(tally, &graph);
    }
    let random = &mut Random(11_000_000);
    ask_all_lengths(tally, &Graph::new(512, flat(&simple(random, 512, 4096))));
    tally.end_part("lengths, right and wrong", "");
}

/// Every call on a graph that is refused whatever is lent, with lengths as if it had so many nodes and edges.
fn ask_refused(tally: &mut Tally, graph: &Graph, n: usize, m: usize) {
    for call in CALLS {
        ask(tally, graph, call, fitting(call, n, m, m));
    }
}

/// Graphs that the graph checks refuse, several at once among them.
fn bad_graphs(tally: &mut Tally) {
    let long: Vec<u16> = (0..8195).map(|place| place % 2).collect();
    // Some of these are small numbers if they are cut to 8, 16, 32 or 63 bits.
    let counts = [
        0,
        1,
        2,
        3,
        511,
        512,
        513,
        514,
        1024,
        65535,
        65536,
        65541,
        1 << 32,
        (1 << 32) + 5,
        1 << 63,
        (1 << 63) + 5,
        usize::MAX - 1,
        usize::MAX,
    ];
    let lists: [&[u16]; 16] = [
        &[],
        &[0],
        &[0, 0],
        &[0, 1],
        &[1, 0],
        &[0, 1, 2],
        &[0, 511],
        &[512, 0],
        &[0, 513, 1, 2],
        &[0, 1, 1, 65535],
        &[0, 1, 1, 1, 1, 0],
        &[0, 1, 1, 2, 2, 0, 0],
        &long[..8191],
        &long[..8193],
        &long[..8194],
        &long,
    ];
    for n in counts {
        for ends in lists {
            let graph = Graph::new(n, ends.to_vec());
            if graph.refusal.is_none() {
                continue;
            }
            tally.graph();
            ask_refused(tally, &graph, n % 1000, ends.len() / 2);
            ask_refused(tally, &graph, 7, 3);
            ask_refused(tally, &graph, 0, 0);
        }
    }
    tally.end_part("graphs that the graph checks refuse", "");
}

/// Random graphs with a fault of their ends or their count put in at times, and lengths that are wrong at times.
fn random_faults(tally: &mut Tally) {
    for i in 0..20_000 {
        let random = &mut Random(12_000_000 + i);
        let graph = random_graph(random, i, 20);
        let (mut n, mut ends) = (graph.n, graph.ends.clone());
        let (right_n, right_m, pairs) = (n, graph.m(), graph.pair_count());
        match random.below(6) {
            0 => n = 513 + random.below(70_000),
            1 => ends.push(0),
            2 if !ends.is_empty() => {
                let place = random.below(ends.len());
                ends[place] = (n + random.below(65536 - n)) as u16;
            }
            3 => n = n.saturating_sub(1),
            _ => {}
        }
        let graph = Graph::new(n, ends);
        tally.graph();
        for call in CALLS {
            let mut lengths = fitting(call, right_n, right_m, pairs);
            match random.below(8) {
                0 => lengths.lent = lengths.lent.saturating_sub(1 + random.below(3)),
                1 => lengths.lent += 1 + random.below(3),
                2 => lengths.presets = lengths.presets.saturating_sub(1),
                3 if lengths.entries > 0 => lengths.entries = random.below(2 * right_m + 2),
                _ => {}
            }
            ask(tally, &graph, call, lengths);
        }
    }
    tally.end_part("random faults", "");
}

/// Strategies that have no number.
fn unknown_strategies(tally: &mut Tally) {
    let graph = Graph::new(3, vec![0, 1, 1, 2, 2, 0]);
    tally.graph();
    for strategy in 0..=255 {
        for call in [
            Call::NodeColorStrategy(strategy),
            Call::EdgeColorStrategy(strategy),
        ] {
            for length in [3, 2] {
                let lengths = Lengths {
                    presets: length,
                    lent: 3,
                    entries: 0,
                };
                ask(tally, &graph, call, lengths);
            }
        }
    }
    tally.end_part("strategies by number", "");
}

/// Ends the program unless the calls were seen to refuse by each of their numbers.
pub fn check_all_seen(tally: &Tally, calls: &[Call]) {
    for &call in calls {
        for &number in [1, 2, 3, 4].iter().chain(own_numbers(call)) {
            let name = call.name();
            assert!(
                tally.was_refused(name, number),
                "{name}: {number} was never due"
            );
        }
    }
}

pub fn run(tally: &mut Tally) {
    wrong_lengths(tally);
    bad_graphs(tally);
    random_faults(tally);
    unknown_strategies(tally);
    check_all_seen(tally, &CALLS);
}
