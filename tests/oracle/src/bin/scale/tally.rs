//! Puts questions to both sides and counts cases and differences, by part and by call.

use std::collections::BTreeMap;
use std::fmt::Debug;

use rustworkx_core::rules::NONE;

use crate::port;
use crate::published::{self, Graph};
use crate::question::{Call, Outcome, Question, STRATEGIES};

/// How many differences of a part are printed.
const SHOWN: u64 = 5;

#[derive(Clone, Copy, Default)]
struct Count {
    cases: u64,
    differences: u64,
}

impl Count {
    fn add(&mut self, differs: bool) {
        self.cases += 1;
        self.differences += u64::from(differs);
    }
}

#[derive(Default)]
pub struct Tally {
    part: Count,
    graphs: u64,
    total: Count,
    total_graphs: u64,
    calls: BTreeMap<&'static str, Count>,
    /// How often each call gave each refusal.
    refusals: BTreeMap<(&'static str, u32), u64>,
}

impl Tally {
    pub fn graph(&mut self) {
        self.graphs += 1;
    }

    /// Counts a case; if its two answers differ, prints them and the input unless many were printed.
    pub fn count(
        &mut self,
        name: &'static str,
        differs: bool,
        graph: &Graph,
        presets: &[u16],
        answers: impl FnOnce() -> String,
    ) {
        self.count_case(name, differs, || {
            let (n, ends) = (graph.n, shortened(&graph.ends));
            let presets = shortened(presets);
            format!("n {n}, ends {ends}, presets {presets}\n{}", answers())
        });
    }

    /// The same of any case, which is printed as given.
    pub fn count_case(&mut self, name: &'static str, differs: bool, case: impl FnOnce() -> String) {
        self.part.add(differs);
        self.calls.entry(name).or_default().add(differs);
        if differs && self.part.differences <= SHOWN {
            println!("difference in {name}: {}", case());
        }
    }

    /// Counts a refusal that was due.
    pub fn refused(&mut self, name: &'static str, number: u32) {
        *self.refusals.entry((name, number)).or_default() += 1;
    }

    /// Puts the question to the Rust and to the port; hands back what the port did.
    pub fn ask(&mut self, graph: &Graph, question: Question) -> Outcome {
        let name = question.call.name();
        let expected = published::answer(graph, question);
        let found = port::ask(graph.n, &graph.ends, question);
        if expected.code != 0 {
            self.refused(name, expected.code);
        }
        self.count(name, expected != found, graph, question.presets, || {
            let (lent, entries) = (question.lent, question.entries);
            let asked = match question.call {
                Call::AddEdge => "rules",
                _ => "Rust",
            };
            format!("  lent {lent}, entries {entries}\n  {asked} {expected:?}\n  port {found:?}")
        });
        found
    }

    /// A call with no presets that lends as many numbers as given.
    pub fn ask_plain(&mut self, graph: &Graph, call: Call, lent: usize) {
        let entries = match call {
            Call::Incidence => graph.ends.len(),
            _ => 0,
        };
        let question = Question {
            call,
            presets: &[],
            lent,
            entries,
        };
        self.ask(graph, question);
    }

    /// The node calls that take presets.
    pub fn ask_node_presets(&mut self, graph: &Graph, presets: &[u16]) {
        let strategies = STRATEGIES.map(Call::NodeColorStrategy);
        for call in [Call::NodeColorPreset].into_iter().chain(strategies) {
            self.ask(graph, presets_question(call, presets));
        }
    }

    /// The edge calls that take presets.
    pub fn ask_edge_presets(&mut self, graph: &Graph, presets: &[u16]) {
        for call in STRATEGIES.map(Call::EdgeColorStrategy) {
            self.ask(graph, presets_question(call, presets));
        }
    }

    /// Every call with the right lengths and nothing preset.
    pub fn ask_every_call(&mut self, graph: &Graph) {
        let (n, m) = (graph.n, graph.m());
        self.graph();
        self.ask_plain(graph, Call::Incidence, n + 1);
        self.ask_plain(graph, Call::TwoColor, n);
        // At times more than is needed: what lies beyond must stay.
        self.ask_plain(graph, Call::LineGraph, 2 * graph.pair_count() + m % 3);
        self.ask_plain(graph, Call::NodeColor, n);
        self.ask_node_presets(graph, &vec![NONE; n]);
        self.ask_plain(graph, Call::EdgeColor, m);
        self.ask_edge_presets(graph, &vec![NONE; m]);
        self.ask_plain(graph, Call::MisraGries, m);
    }

    /// Ends a part and prints its line, with a remark if there is one.
    pub fn end_part(&mut self, name: &str, remark: &str) {
        let Count { cases, differences } = self.part;
        let graphs = self.graphs;
        println!("{name}: {graphs} graphs, {cases} cases, {differences} differences{remark}");
        self.total.cases += cases;
        self.total.differences += differences;
        self.total_graphs += graphs;
        self.part = Count::default();
        self.graphs = 0;
    }

    /// Prints the counts by call and in all; says whether there was no difference.
    pub fn end(&self) -> bool {
        println!("by call:");
        for (name, Count { cases, differences }) in &self.calls {
            println!("  {name}: {cases} cases, {differences} differences");
        }
        let Count { cases, differences } = self.total;
        let graphs = self.total_graphs;
        println!("total: {graphs} graphs, {cases} cases, {differences} differences");
        differences == 0
    }

    pub fn was_refused(&self, name: &'static str, number: u32) -> bool {
        self.refusals.contains_key(&(name, number))
    }
}

/// A call with presets, and as many numbers lent as there are presets.
pub fn presets_question(call: Call, presets: &[u16]) -> Question<'_> {
    Question {
        call,
        presets,
        lent: presets.len(),
        entries: 0,
    }
}

/// A list as it is printed; a long one is cut.
pub fn shortened<T: Debug>(list: &[T]) -> String {
    const MOST: usize = 200;
    if list.len() > MOST {
        format!("{:?} .. ({} numbers)", &list[..MOST], list.len())
    } else {
        format!("{list:?}")
    }
}
