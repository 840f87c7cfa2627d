//! What the Rust leaves to its queue and to a hash set: every answer of it must be one that 01 allows, and the port's the
//! one that 01 chooses.

use rustworkx_core::rules::NONE;
use rustworkx_core::shapes::{flat, Random};

use crate::exhaustive::{all_lists, all_presets, all_simple};
use crate::models;
use crate::port;
use crate::published::{colors_by_strategy, node_run, pairs, set_seed, Graph, Kind};
use crate::question::{Call, INDEPENDENT_SET, SATURATION};
use crate::random::{different_presets, limit_graphs, limit_orders, random_graph, random_presets};
use crate::tally::{presets_question, Tally};

const KINDS: [Kind; 2] = [Kind::Nodes, Kind::Edges];

fn call(kind: Kind, strategy: u8) -> Call {
    match kind {
        Kind::Nodes => Call::NodeColorStrategy(strategy),
        Kind::Edges => Call::EdgeColorStrategy(strategy),
    }
}

fn count(graph: &Graph, kind: Kind) -> usize {
    match kind {
        Kind::Nodes => graph.n,
        Kind::Edges => graph.m(),
    }
}

/// The colours of a run by item.
fn by_item(run: &[(usize, u16)]) -> Vec<u16> {
    let mut run = run.to_vec();
    run.sort_unstable();
    run.into_iter().map(|(_, color)| color).collect()
}

/// Replays the Rust's runs of Saturation with these seeds. Hands back how many gave other colours than the port's.
fn saturation(tally: &mut Tally, graph: &Graph, kind: Kind, presets: &[u16], seeds: &[u64]) -> u64 {
    let name = match kind {
        Kind::Nodes => "run of Saturation over nodes, replayed",
        Kind::Edges => "run of Saturation over edges, replayed",
    };
    let items = graph.items(kind);
    let neighbours = models::neighbours(items.node_count(), &pairs(&items));
    let question = presets_question(call(kind, SATURATION), presets);
    let of_port = port::ask(graph.n, &graph.ends, question).lent;
    let mut others = 0;
    for &seed in seeds {
        set_seed(seed);
        let run = node_run(&items, presets, SATURATION);
        let mut fault = models::saturation_fault(&neighbours, presets, &run, seed == 0);
        let colors = by_item(&run);
        // Edges are coloured over the line graph; the Rust's own edge call must agree with that.
        if fault.is_none() && colors_by_strategy(graph, kind, presets, SATURATION) != colors {
            fault = Some("the Rust's own call answers otherwise".to_string());
        }
        // Seed 0 takes the lowest, as the port must.
        if fault.is_none() && seed == 0 && of_port != colors {
            fault = Some(format!("the port has {of_port:?}"));
        }
        others += u64::from(of_port != colors);
        tally.count(name, fault.is_some(), graph, presets, || {
            format!("  seed {seed}: {}\n  run {run:?}", fault.unwrap())
        });
    }
    set_seed(0);
    others
}

fn saturation_with_presets(
    tally: &mut Tally,
    random: &mut Random,
    graph: &Graph,
    seeds: &[u64],
) -> u64 {
    let mut others = 0;
    for kind in KINDS {
        let length = count(graph, kind);
        let presets = random_presets(random, length);
        others += saturation(tally, graph, kind, &vec![NONE; length], seeds);
        others += saturation(tally, graph, kind, &presets, seeds);
    }
    others
}

fn saturation_small(tally: &mut Tally) {
    let mut others = 0;
    for n in 1..=5 {
        for edges in all_simple(n) {
            let graph = Graph::new(n.into(), flat(&edges));
            tally.graph();
            for kind in KINDS {
                let none = vec![NONE; count(&graph, kind)];
                others += saturation(tally, &graph, kind, &none, &[0, 1, 2, 3, 4, 5]);
            }
        }
    }
    for (n, m) in [(1, 2), (2, 3), (3, 2), (3, 3)] {
        for ends in all_lists(n, m) {
            let graph = Graph::new(n, ends);
            tally.graph();
            for kind in KINDS {
                for presets in all_presets(count(&graph, kind)) {
                    others += saturation(tally, &graph, kind, &presets, &[0, 1, 2]);
                }
            }
        }
    }
    let remark = format!("; {others} runs have other colours than the port");
    tally.end_part("Saturation, small graphs, several seeds", &remark);
}

fn saturation_random(tally: &mut Tally) {
    let mut others = 0;
    for i in 0..8_000 {
        let random = &mut Random(6_000_000 + i);
        let graph = random_graph(random, i, 40);
        tally.graph();
        others += saturation_with_presets(tally, random, &graph, &[0, 3 * i + 1, 3 * i + 2]);
    }
    for i in 0..100 {
        let random = &mut Random(7_000_000 + i);
        let graph = random_graph(random, i, 300);
        tally.graph();
        others += saturation_with_presets(tally, random, &graph, &[0, i + 1]);
    }
    let remark = format!("; {others} runs have other colours than the port");
    tally.end_part("Saturation, random graphs, several seeds", &remark);
}

fn saturation_limits(tally: &mut Tally) {
    let random = &mut Random(8_000_000);
    let mut others = 0;
    for (n, edges) in limit_graphs(random) {
        let edges = limit_orders(random, &edges).pop().unwrap();
        let graph = Graph::new(n.into(), flat(&edges));
        tally.graph();
        for kind in KINDS {
            let presets = random_presets(random, count(&graph, kind));
            others += saturation(tally, &graph, kind, &presets, &[0, 9, 10]);
        }
    }
    let remark = format!("; {others} runs have other colours than the port");
    tally.end_part("Saturation, limits, several seeds", &remark);
}

/// The most presets that share a colour whose orders are all tried.
const MOST_SHARING: usize = 5;

/// How often the Rust is asked: each time its hash set has another order.
const TIMES: u64 = 3;

/// Asks IndependentSet. Hands back how many of the Rust's answers are not the port's.
fn independent_set(tally: &mut Tally, graph: &Graph, kind: Kind, presets: &[u16]) -> u64 {
    let name = match kind {
        Kind::Nodes => "IndependentSet over nodes, some order of the presets",
        Kind::Edges => "IndependentSet over edges, some order of the presets",
    };
    // The port's answer is that of the rising order.
    tally.ask(
        graph,
        presets_question(call(kind, INDEPENDENT_SET), presets),
    );
    let items = graph.items(kind);
    let neighbours = models::neighbours(items.node_count(), &pairs(&items));
    let rising = models::independent_set(&neighbours, presets, &models::preset_items(presets));
    let answers = models::independent_set_answers(&neighbours, presets);
    let mut others = 0;
    for time in 0..TIMES {
        set_seed(time);
        let found = colors_by_strategy(graph, kind, presets, INDEPENDENT_SET);
        others += u64::from(found != rising);
        tally.count(name, !answers.contains(&found), graph, presets, || {
            format!("  Rust {found:?}\n  no order gives it, but {answers:?}")
        });
    }
    set_seed(0);
    others
}

fn independent_set_small(tally: &mut Tally) {
    let mut others = 0;
    for n in 1..=5 {
        for edges in all_simple(n) {
            let graph = Graph::new(n.into(), flat(&edges));
            tally.graph();
            // Of the 1,024 lists of presets for five nodes every seventh.
            for presets in all_presets(n.into()).step_by(if n == 5 { 7 } else { 1 }) {
                others += independent_set(tally, &graph, Kind::Nodes, &presets);
            }
            if n == 5 {
                continue;
            }
            for presets in all_presets(graph.m()) {
                if models::sharing(&presets).len() <= MOST_SHARING {
                    others += independent_set(tally, &graph, Kind::Edges, &presets);
                }
            }
        }
    }
    let remark = format!("; {others} answers are of another order than the rising one");
    tally.end_part("IndependentSet, small graphs, presets", &remark);
}

/// Two to five presets out of one or two low colours, and at times another.
fn shared_presets(random: &mut Random, length: usize) -> Vec<u16> {
    let mut presets = different_presets(random, length);
    for preset in &mut presets {
        if *preset < 2 {
            *preset = NONE;
        }
    }
    let colors = 1 + random.below(2);
    for _ in 0..2 + random.below(MOST_SHARING - 1) {
        if length > 0 {
            presets[random.below(length)] = random.below(colors) as u16;
        }
    }
    presets
}

fn independent_set_random(tally: &mut Tally) {
    let mut others = 0;
    for i in 0..10_000 {
        let random = &mut Random(9_000_000 + i);
        let graph = random_graph(random, i, 25);
        tally.graph();
        for kind in KINDS {
            let length = count(&graph, kind);
            let presets = shared_presets(random, length);
            others += independent_set(tally, &graph, kind, &presets);
            // With no shared colour there is one answer, which shows that the model is right.
            let presets = different_presets(random, length);
            others += independent_set(tally, &graph, kind, &presets);
        }
    }
    let remark = format!("; {others} answers are of another order than the rising one");
    tally.end_part("IndependentSet, random graphs, presets", &remark);
}

pub fn run(tally: &mut Tally) {
    saturation_small(tally);
    saturation_random(tally);
    saturation_limits(tally);
    independent_set_small(tally);
    independent_set_random(tally);
}
