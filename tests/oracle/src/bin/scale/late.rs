//! Late matches: the port's misra_gries_add_edge beside that of rules.rs; beside the Rust's run on the whole list where the
//! stored colours are the Rust's; and by what 02 promises of all others.

use rustworkx_core::rules::{self, NONE};
use rustworkx_core::shapes::{flat, mixed, proper_colors, renamed, simple, Edges, Random};

use crate::exhaustive::{all_numbers, all_simple, turned};
use crate::models::orders;
use crate::published::{self, Graph};
use crate::question::{Call, Outcome, Question};
use crate::random::{limit_graphs, limit_orders};
use crate::refusals::{around, check_all_seen};
use crate::tally::Tally;

/// Where the stored colours are those that the Rust gives the edges before the last.
const AFRESH: &str = "misra_gries_add_edge beside the Rust's run on the whole list";
/// Of every late match that is accepted.
const HELD: &str = "misra_gries_add_edge by range, sharing, left over and days";

/// The Rust's run on a list that has neither loops nor double edges.
fn rust_run(graph: &Graph) -> Outcome {
    let question = Question {
        call: Call::MisraGries,
        presets: &[],
        lent: graph.m(),
        entries: 0,
    };
    let outcome = published::answer(graph, question);
    assert_eq!(outcome.code, 0);
    outcome
}

/// The Rust's colours of all edges but the last.
fn rust_before(n: u16, edges: &[(u16, u16)]) -> Vec<u16> {
    let before = &edges[..edges.len() - 1];
    rust_run(&Graph::new(n.into(), flat(before))).lent
}

/// Whether the colours are from 0 to D, edges that share an end have different ones, every node has one left over, and the
/// days are as many as there are different ones.
fn holds(graph: &Graph, outcome: &Outcome) -> bool {
    let mut degrees = vec![0; graph.n];
    for &end in &graph.ends {
        degrees[usize::from(end)] += 1;
    }
    let count = degrees.into_iter().max().unwrap_or(0) + 1;
    let mut seen = vec![vec![false; count]; graph.n];
    for (e, &color) in graph.ends.chunks(2).zip(&outcome.lent) {
        let color = usize::from(color);
        if color >= count {
            return false;
        }
        for &end in e {
            if std::mem::replace(&mut seen[usize::from(end)][color], true) {
                return false;
            }
        }
    }
    let left_over = |at: &Vec<bool>| at.contains(&false);
    outcome.lent.len() == graph.m()
        && outcome.report == rules::days(&outcome.lent)
        && seen.iter().all(left_over)
}

/// The last edge late, with so many colours lent; hands back what the port did.
fn ask_lent(tally: &mut Tally, graph: &Graph, stored: &[u16], lent: usize) -> Outcome {
    let question = Question {
        call: Call::AddEdge,
        presets: stored,
        lent,
        entries: 0,
    };
    let found = tally.ask(graph, question);
    if found.code == 0 {
        tally.count(HELD, !holds(graph, &found), graph, stored, || {
            format!("  port {found:?}")
        });
    }
    found
}

/// The same with a place for each edge.
fn ask(tally: &mut Tally, graph: &Graph, stored: &[u16]) -> Outcome {
    ask_lent(tally, graph, stored, graph.m())
}

/// The same where the stored colours are the Rust's: the outcome must be that of the Rust's run on the whole list. Hands back
/// that run's colours.
fn ask_afresh(tally: &mut Tally, graph: &Graph, stored: &[u16]) -> Vec<u16> {
    tally.graph();
    let whole = rust_run(graph);
    let found = ask(tally, graph, stored);
    tally.count(AFRESH, found != whole, graph, stored, || {
        format!("  Rust {whole:?}\n  port {found:?}")
    });
    whole.lent
}

/// Each edge of the list late, after the Rust's colours of those before it.
fn ask_each_afresh(tally: &mut Tally, n: u16, edges: &[(u16, u16)]) {
    let mut stored = Vec::new();
    for k in 0..edges.len() {
        let graph = Graph::new(n.into(), flat(&edges[..=k]));
        stored = ask_afresh(tally, &graph, &stored);
    }
}

/// The last edge of the list late, after the Rust's colours of the others.
fn ask_last_afresh(tally: &mut Tally, n: u16, edges: &[(u16, u16)]) {
    let stored = rust_before(n, edges);
    ask_afresh(tally, &Graph::new(n.into(), flat(edges)), &stored);
}

fn simple_graphs(tally: &mut Tally) {
    for n in 0..=6 {
        ask_afresh(tally, &Graph::new(n.into(), Vec::new()), &[]);
        for edges in all_simple(n).filter(|edges| !edges.is_empty()) {
            // In this order what stands before the last edge is another of these lists.
            ask_last_afresh(tally, n, &edges);
        }
    }
    tally.end_part(
        "late: all simple graphs of up to 6 nodes, in one order, each prefix extended by its next edge",
        "",
    );
    for (i, edges) in all_simple(6).enumerate() {
        let random = &mut Random(30_000_000 + i as u64);
        ask_each_afresh(tally, 6, &mixed(random, &edges));
    }
    tally.end_part(
        "late: all simple graphs of 6 nodes, shuffled and turned, each prefix extended by its next edge",
        "",
    );
}

fn simple_orders(tally: &mut Tally) {
    for edges in all_simple(4).filter(|edges| !edges.is_empty()) {
        for order in orders(&edges) {
            for bits in 0..1 << edges.len() {
                ask_last_afresh(tally, 4, &turned(&order, bits));
            }
        }
    }
    tally.end_part(
        "late: all simple graphs of 4 nodes, in all orders, turned all ways",
        "",
    );
}

/// Proper or not.
fn all_stored(tally: &mut Tally) {
    let mut accepted = 0;
    for n in 2..=4 {
        for (i, edges) in all_simple(n).enumerate().skip(1) {
            let random = &mut Random(31_000_000 + i as u64);
            let graph = Graph::new(n.into(), flat(&mixed(random, &edges)));
            tally.graph();
            // Up to D, one more, and none.
            let most = graph.greatest_degree();
            for colors in all_numbers(most + 3, graph.m() - 1) {
                let color = |color| if color > most + 1 { NONE } else { color as u16 };
                let stored: Vec<u16> = colors.into_iter().map(color).collect();
                let found = ask(tally, &graph, &stored);
                accepted += u64::from(found.code == 0);
            }
        }
    }
    let remark = format!("; {accepted} were accepted");
    tally.end_part(
        "late: all stored colours out of 0 to D + 1 and 65,535 for all simple graphs of up to 4 nodes",
        &remark,
    );
}

/// A list with at least one edge, now and then a larger one.
fn random_edges(random: &mut Random, i: u64) -> (u16, Edges) {
    let n = match i % 200 {
        199 => 60 + random.node(80),
        _ => 2 + random.node(14),
    };
    let pairs = usize::from(n) * usize::from(n - 1) / 2;
    let m = 1 + random.below(pairs.min(600));
    (n, simple(random, n, m))
}

/// Colours from 0 to D for all edges but the last, and whether they were chosen one by one. Where that gets stuck, they are the
/// Rust's of another order under other names.
fn other_colors(random: &mut Random, n: u16, edges: &[(u16, u16)], most: u16) -> (Vec<u16>, bool) {
    let before = &edges[..edges.len() - 1];
    if let Some(colors) = (0..4).find_map(|_| proper_colors(random, before, most)) {
        return (colors, true);
    }
    let mut order: Vec<usize> = (0..before.len()).collect();
    random.shuffle(&mut order);
    let shuffled: Edges = order.iter().map(|&k| before[k]).collect();
    let run = rust_run(&Graph::new(n.into(), flat(&shuffled)));
    let names = renamed(random, &run.lent, most);
    let mut colors = vec![NONE; before.len()];
    for (place, color) in order.into_iter().zip(names) {
        colors[place] = color;
    }
    (colors, false)
}

fn other_colorings(tally: &mut Tally) {
    let (mut chosen, mut moved) = (0, 0);
    for i in 0..100_000 {
        let random = &mut Random(32_000_000 + i);
        let (n, edges) = random_edges(random, i);
        let graph = Graph::new(n.into(), flat(&edges));
        tally.graph();
        let most = graph.greatest_degree() as u16;
        let (stored, one_by_one) = other_colors(random, n, &edges, most);
        let found = ask(tally, &graph, &stored);
        assert!(!rules::shares_a_color(&graph.ends, &stored));
        chosen += u64::from(one_by_one);
        moved += u64::from(!found.lent.starts_with(&stored));
    }
    let remark =
        format!("; in {chosen} each edge chose at random, and {moved} changed stored colours");
    tally.end_part("late: random graphs with other proper colours", &remark);
}

/// All that a late match is handed.
struct Late {
    n: usize,
    ends: Vec<u16>,
    stored: Vec<u16>,
    lent: usize,
}

/// Something is changed, mostly so that a number is due.
fn change(random: &mut Random, late: &mut Late, most: u16) {
    let (m, k) = (late.ends.len() / 2, late.stored.len());
    let place = random.below(k.max(1));
    let other = random.below(m.max(1));
    let fault = random.below(16);
    // A place of the stored colours, or of the list, may not be there any more.
    let colored = place < k;
    let listed = other < m;
    match fault {
        // The colour of another edge, mostly of one that shares an end.
        0..=3 if colored && 2 * place + 1 < late.ends.len() => {
            let own = [late.ends[2 * place], late.ends[2 * place + 1]];
            let beside = |&j: &usize| {
                late.ends[2 * j..]
                    .iter()
                    .take(2)
                    .any(|end| own.contains(end))
            };
            let others: Vec<usize> = (0..k.min(m)).filter(|&j| j != place).collect();
            let near: Vec<usize> = others.iter().copied().filter(beside).collect();
            let from = if near.is_empty() { others } else { near };
            if !from.is_empty() {
                late.stored[place] = late.stored[from[random.below(from.len())]];
            }
        }
        4 if colored => late.stored[place] = most.saturating_add(1),
        5 if colored => late.stored[place] = NONE,
        6 if colored => late.stored[place] = most + random.below(usize::from(NONE - most)) as u16,
        7 if colored => late.stored[place] = random.below(usize::from(most) + 1) as u16,
        8 => late.stored.resize(random.below(k + 3), 0),
        9 => late.lent = random.below(m + 3),
        10 if listed => late.ends[2 * other] = late.ends[2 * other + 1],
        11 if listed && m > 1 => {
            let double = (other + 1 + random.below(m - 1)) % m;
            let turn = random.below(2);
            late.ends[2 * other] = late.ends[2 * double + turn];
            late.ends[2 * other + 1] = late.ends[2 * double + 1 - turn];
        }
        12 => late.n = late.n.saturating_sub(1),
        13 => late.n += 513 * random.below(200),
        14 => drop(late.ends.pop()),
        15 if listed => late.ends[2 * other] = random.below(65536) as u16,
        _ => {}
    }
}

/// One to three changes to a late match that is right.
fn changes(tally: &mut Tally) {
    let mut refused = 0;
    for i in 0..100_000 {
        let random = &mut Random(33_000_000 + i);
        let (n, edges) = random_edges(random, i);
        let right = Graph::new(n.into(), flat(&edges));
        let most = right.greatest_degree() as u16;
        let (stored, _) = other_colors(random, n, &edges, most);
        let mut late = Late {
            n: right.n,
            lent: right.m(),
            ends: right.ends,
            stored,
        };
        for _ in 0..[1, 1, 1, 2, 3][random.below(5)] {
            change(random, &mut late, most);
        }
        tally.graph();
        let graph = Graph::new(late.n, late.ends);
        let found = ask_lent(tally, &graph, &late.stored, late.lent);
        refused += u64::from(found.code != 0);
    }
    let remark = format!("; {refused} were refused");
    tally.end_part("late: random changes", &remark);
}

/// Lengths of stored colours and of the lent slice, right and wrong, beside each number that may be due too.
fn checks(tally: &mut Tally) {
    let long: Vec<u16> = (0..8195).map(|place| place % 2).collect();
    let graphs: [(usize, &[u16]); 20] = [
        (0, &[]),
        (512, &[]),
        (2, &[0, 1]),
        (512, &[511, 0]),
        (3, &[0, 1, 1, 2, 2, 0]),
        (4, &[0, 1, 1, 2, 0, 2, 2, 3]),
        (2, &[0, 1, 1, 1]),
        (1, &[0, 0]),
        (2, &[0, 1, 1, 0]),
        (3, &[0, 1, 1, 0, 2, 2]),
        (2, &long[..8192]),
        (513, &[0, 1]),
        (usize::MAX, &[]),
        (3, &[0]),
        (3, &[0, 1, 3]),
        (2, &long[..8193]),
        (2, &long[..8194]),
        (1, &long),
        (3, &[0, 3]),
        (512, &[0, 1, 512, 1]),
    ];
    for (n, ends) in graphs {
        let graph = Graph::new(n, ends.to_vec());
        tally.graph();
        let m = ends.len() / 2;
        for length in around(m.saturating_sub(1)) {
            for first in [0, NONE] {
                let stored: Vec<u16> = (0..length).map(|k| first ^ (k % 600) as u16).collect();
                for lent in around(m) {
                    ask_lent(tally, &graph, &stored, lent);
                }
            }
        }
    }
    tally.end_part("late: checks", "");
}

/// The graphs at the limits that have neither loops nor double edges, after the Rust's colours, after those under other names,
/// and with the last stored colour changed.
fn limits(tally: &mut Tally) {
    let random = &mut Random(34_000_000);
    for (n, edges) in limit_graphs(random) {
        let ends = flat(&edges);
        if edges.is_empty() || rules::has_loop(&ends) || rules::has_double_edge(&ends) {
            continue;
        }
        for edges in limit_orders(random, &edges) {
            let graph = Graph::new(n.into(), flat(&edges));
            let stored = rust_before(n, &edges);
            ask_afresh(tally, &graph, &stored);
            let most = graph.greatest_degree() as u16;
            ask(tally, &graph, &renamed(random, &stored, most));
            let last = stored.len() - 1;
            for color in [0, most, most + 1, NONE] {
                let mut changed = stored.clone();
                changed[last] = color;
                ask(tally, &graph, &changed);
            }
        }
    }
    tally.end_part("late: limits, in four orders each", "");
}

pub fn run(tally: &mut Tally) {
    simple_graphs(tally);
    simple_orders(tally);
    all_stored(tally);
    other_colorings(tally);
    changes(tally);
    checks(tally);
    limits(tally);
    check_all_seen(tally, &[Call::AddEdge]);
}
