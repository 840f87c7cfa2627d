//! The port's side: the calls of the static library, with everything they are handed between margins that they must not
//! write.

use rustworkx_core::rules;

use crate::question::{Call, Chosen, FileRead, Outcome, Question, Writing, Written, REPORT_BEFORE};

// The prototypes are those of the Rust crate at the repository's root, which has more calls than are asked here.
#[allow(dead_code)]
#[path = "../../../../../rust/src/ffi.rs"]
mod ffi;

const MARGIN: usize = 4;

/// A slice with a margin on either side.
struct Guarded<T> {
    cells: Vec<T>,
    margin: T,
}

impl<T: Copy + PartialEq> Guarded<T> {
    fn new(margin: T, numbers: impl Iterator<Item = T>) -> Self {
        let side = || std::iter::repeat(margin).take(MARGIN);
        Guarded {
            cells: side().chain(numbers).chain(side()).collect(),
            margin,
        }
    }

    fn pointer(&mut self) -> *mut T {
        self.cells[MARGIN..].as_mut_ptr()
    }

    fn len(&self) -> usize {
        self.cells.len() - 2 * MARGIN
    }

    fn slice(&self) -> &[T] {
        &self.cells[MARGIN..MARGIN + self.len()]
    }

    fn margins_changed(&self) -> bool {
        let after = &self.cells[MARGIN + self.len()..];
        let mut margins = self.cells[..MARGIN].iter().chain(after);
        margins.any(|&cell| cell != self.margin)
    }
}

fn numbers(from: &[u16]) -> Guarded<u16> {
    Guarded::new(0xa5a5, from.iter().copied())
}

fn lent_numbers(length: usize) -> Guarded<u16> {
    Guarded::new(0xa5a5, (0..length).map(rules::lent_number))
}

fn lent_bytes(length: usize) -> Guarded<u8> {
    Guarded::new(0xa5, (0..length).map(rules::lent_byte))
}

/// two_color's colours are bytes; otherwise as `ask`.
fn ask_two_color(n: usize, ends: &[u16], length: usize) -> Outcome {
    let mut handed_ends = numbers(ends);
    let mut handed_colors = lent_bytes(length);
    let mut report = REPORT_BEFORE;
    // SAFETY: every pointer comes with the length of its slice, and no two slices overlap.
    let code = unsafe {
        let colors = handed_colors.pointer();
        ffi::wg_two_color(
            n,
            handed_ends.pointer(),
            ends.len(),
            colors,
            length,
            &mut report,
        )
    };
    let colors = handed_colors.slice().iter();
    Outcome {
        code,
        report,
        lent: colors.map(|&color| color.into()).collect(),
        entries: Vec::new(),
        wrote_elsewhere: handed_ends.slice() != ends
            || handed_ends.margins_changed()
            || handed_colors.margins_changed(),
    }
}

/// All that a call can be handed beside the node count.
struct Handed {
    ends: Guarded<u16>,
    presets: Guarded<u16>,
    lent: Guarded<u16>,
    entries: Guarded<u16>,
    report: usize,
}

#[rustfmt::skip]
fn call(n: usize, call: Call, handed: &mut Handed) -> u32 {
    let (ends, ends_len) = (handed.ends.pointer(), handed.ends.len());
    let (presets, presets_len) = (handed.presets.pointer(), handed.presets.len());
    let (lent, lent_len) = (handed.lent.pointer(), handed.lent.len());
    let (entries, entries_len) = (handed.entries.pointer(), handed.entries.len());
    let report = &mut handed.report;
    // SAFETY: every pointer comes with the length of its slice, and no two slices overlap.
    unsafe {
        match call {
            Call::TwoColor => unreachable!("its colours are bytes"),
            Call::Incidence => ffi::wg_incidence(
                n, ends, ends_len, lent, lent_len, entries, entries_len, report,
            ),
            Call::LineGraph => ffi::wg_line_graph(n, ends, ends_len, lent, lent_len, report),
            Call::NodeColor => ffi::wg_greedy_node_color(n, ends, ends_len, lent, lent_len, report),
            Call::NodeColorPreset => ffi::wg_greedy_node_color_with_preset_colors(
                n, ends, ends_len, presets, presets_len, lent, lent_len, report,
            ),
            Call::NodeColorStrategy(strategy) => ffi::wg_greedy_node_color_with_coloring_strategy(
                n, ends, ends_len, presets, presets_len, strategy, lent, lent_len, report,
            ),
            Call::EdgeColor => ffi::wg_greedy_edge_color(n, ends, ends_len, lent, lent_len, report),
            Call::EdgeColorStrategy(strategy) => ffi::wg_greedy_edge_color_with_coloring_strategy(
                n, ends, ends_len, presets, presets_len, strategy, lent, lent_len, report,
            ),
            Call::MisraGries => {
                ffi::wg_misra_gries_edge_color(n, ends, ends_len, lent, lent_len, report)
            }
            Call::AddEdge => ffi::wg_misra_gries_add_edge(
                n, ends, ends_len, presets, presets_len, lent, lent_len, report,
            ),
        }
    }
}

/// Puts the question to the port.
pub fn ask(n: usize, ends: &[u16], question: Question) -> Outcome {
    if let Call::TwoColor = question.call {
        return ask_two_color(n, ends, question.lent);
    }
    let mut handed = Handed {
        ends: numbers(ends),
        presets: numbers(question.presets),
        lent: lent_numbers(question.lent),
        entries: lent_numbers(question.entries),
        report: REPORT_BEFORE,
    };
    let code = call(n, question.call, &mut handed);
    let margins = [&handed.ends, &handed.presets, &handed.lent, &handed.entries];
    Outcome {
        code,
        report: handed.report,
        lent: handed.lent.slice().to_vec(),
        entries: handed.entries.slice().to_vec(),
        wrote_elsewhere: handed.ends.slice() != ends
            || handed.presets.slice() != question.presets
            || margins.iter().any(|slice| slice.margins_changed()),
    }
}

/// Has the port read a file into so many ends and colours.
pub fn read_file(bytes: &[u8], ends: usize, colors: usize) -> FileRead {
    let mut handed = Guarded::new(0xa5, bytes.iter().copied());
    let (mut lent_ends, mut lent_colors) = (lent_numbers(ends), lent_numbers(colors));
    let mut report = [REPORT_BEFORE; 4];
    let [nodes, edges, tags, method] = &mut report;
    // SAFETY: every pointer comes with the length of its slice, and no two slices overlap.
    let code = unsafe {
        ffi::wg_read_graph_file(
            handed.pointer(),
            bytes.len(),
            lent_ends.pointer(),
            ends,
            lent_colors.pointer(),
            colors,
            nodes,
            edges,
            tags,
            method,
        )
    };
    FileRead {
        code,
        report,
        ends: lent_ends.slice().to_vec(),
        colors: lent_colors.slice().to_vec(),
        wrote_elsewhere: handed.slice() != bytes
            || handed.margins_changed()
            || lent_ends.margins_changed()
            || lent_colors.margins_changed(),
    }
}

/// Has the port write a file.
pub fn write_file(writing: &Writing) -> Written {
    let (mut ends, mut colors) = (numbers(&writing.ends), numbers(&writing.colors));
    let mut output = lent_bytes(writing.output);
    let mut length = REPORT_BEFORE;
    // SAFETY: every pointer comes with the length of its slice, and no two slices overlap.
    let code = unsafe {
        ffi::wg_write_graph_file(
            writing.n,
            ends.pointer(),
            ends.len(),
            colors.pointer(),
            colors.len(),
            writing.tags,
            writing.method,
            output.pointer(),
            writing.output,
            &mut length,
        )
    };
    Written {
        code,
        length,
        output: output.slice().to_vec(),
        wrote_elsewhere: ends.slice() != writing.ends
            || colors.slice() != writing.colors
            || ends.margins_changed()
            || colors.margins_changed()
            || output.margins_changed(),
    }
}

/// Has the port choose between two lists by their first m numbers.
pub fn fewer_days(first: &[u16], second: &[u16], m: usize) -> Chosen {
    let (mut handed_first, mut handed_second) = (numbers(first), numbers(second));
    let mut length = REPORT_BEFORE;
    // SAFETY: every pointer comes with the length of its slice, and no two slices overlap.
    let list = unsafe {
        ffi::wg_fewer_days(
            handed_first.pointer(),
            first.len(),
            handed_second.pointer(),
            second.len(),
            m,
            &mut length,
        )
    };
    Chosen {
        list,
        length,
        wrote_elsewhere: handed_first.slice() != first
            || handed_second.slice() != second
            || handed_first.margins_changed()
            || handed_second.margins_changed(),
    }
}
