//! Graph colouring for calendars, every function proved: safe functions over the static library.
//!
//! A graph is a node count `n`, at most [`MAX_NODES`], and a list of ends: edge k joins `ends[2 * k]` and
//! `ends[2 * k + 1]`. A graph has at most [`MAX_EDGES`] edges. Colours are written into a slice that the caller lends;
//! where a call refuses, the slice is as it was, and the refusal says why. A colouring that is accepted answers how many
//! days it takes: how many different colours it has.
//!
//! ```
//! // Four clubs, four matches: 0 against 1, 1 against 2, 0 against 2, 2 against 3.
//! let matches = [0, 1, 1, 2, 0, 2, 2, 3];
//! let mut days = [0; 4];
//! assert_eq!(wulgranite::misra_gries_edge_color(4, &matches, &mut days), Ok(3));
//! assert_eq!(days, [2, 1, 0, 2]);
//! ```

mod ffi;

use std::fmt;

/// The mark of what has no colour.
pub const NONE: u16 = 65535;

/// The most nodes of a graph.
pub const MAX_NODES: usize = 512;

/// The most edges of a graph.
pub const MAX_EDGES: usize = 4096;

/// The longest house file in bytes.
pub const MAX_FILE: usize = 24591;

/// What is wrong with an input.
#[derive(Clone, Copy, Debug, PartialEq, Eq, Hash)]
pub enum Refusal {
    /// 1: there are more than 512 nodes.
    TooManyNodes = 1,
    /// 2: the end list has odd length.
    OddEnds = 2,
    /// 3: the end list has more than 8,192 numbers.
    TooManyEnds = 3,
    /// 4: an end is the node count or more.
    EndOutside = 4,
    /// 5: a lent slice has the wrong length.
    WrongLength = 5,
    /// 6: an edge has equal ends.
    Loop = 6,
    /// 7: two edges have the same ends.
    DoubleEdge = 7,
    /// 8: a closed walk of odd length exists.
    OddClosedWalk = 8,
    /// 9: the lent list is too short for the pairs.
    ShortList = 9,
    /// 10: the bytes are no house file, or what is told doesn't make one.
    BadFile = 10,
    /// 11: a stored colour is too great, or two edges that share an end have the same one.
    BadStoredColors = 11,
}

impl Refusal {
    /// The number by which the refusal is known.
    ///
    /// ```
    /// assert_eq!(wulgranite::Refusal::OddClosedWalk.number(), 8);
    /// ```
    pub fn number(self) -> u32 {
        self as u32
    }

    fn of(number: u32) -> Refusal {
        match number {
            1 => Refusal::TooManyNodes,
            2 => Refusal::OddEnds,
            3 => Refusal::TooManyEnds,
            4 => Refusal::EndOutside,
            5 => Refusal::WrongLength,
            6 => Refusal::Loop,
            7 => Refusal::DoubleEdge,
            8 => Refusal::OddClosedWalk,
            9 => Refusal::ShortList,
            10 => Refusal::BadFile,
            11 => Refusal::BadStoredColors,
            _ => unreachable!("the library refuses by no such number: {number}"),
        }
    }
}

impl fmt::Display for Refusal {
    fn fmt(&self, f: &mut fmt::Formatter) -> fmt::Result {
        let why = match self {
            Refusal::TooManyNodes => "there are more than 512 nodes",
            Refusal::OddEnds => "the end list has odd length",
            Refusal::TooManyEnds => "the end list has more than 8,192 numbers",
            Refusal::EndOutside => "an end is the node count or more",
            Refusal::WrongLength => "a lent slice has the wrong length",
            Refusal::Loop => "an edge has equal ends",
            Refusal::DoubleEdge => "two edges have the same ends",
            Refusal::OddClosedWalk => "a closed walk of odd length exists",
            Refusal::ShortList => "the lent list is too short for the pairs",
            Refusal::BadFile => "the bytes are no house file, or what is told doesn't make one",
            Refusal::BadStoredColors => {
                "a stored colour is too great, or two edges that share an end have the same one"
            }
        };
        write!(f, "refused {}: {why}", self.number())
    }
}

impl std::error::Error for Refusal {}

/// How the next node or edge of a greedy colouring is chosen.
#[derive(Clone, Copy, Debug, PartialEq, Eq, Hash)]
pub enum ColoringStrategy {
    /// By falling degree.
    Degree = 0,
    /// By the number of different colours on the neighbours.
    Saturation = 1,
    /// Colour by colour, each on a greedily chosen set without neighbours.
    IndependentSet = 2,
}

/// The values where the number is 0, else the refusal.
fn answer<T>(number: u32, values: T) -> Result<T, Refusal> {
    match number {
        0 => Ok(values),
        _ => Err(Refusal::of(number)),
    }
}

/// Writes the incidence table: `n + 1` starts, and entries as many as there are ends. The answer is the total, the number
/// of entries that count; the entries beyond it, one for each loop, are unchanged.
///
/// ```
/// let (mut starts, mut entries) = ([0; 4], [0; 4]);
/// assert_eq!(wulgranite::incidence(3, &[0, 1, 2, 0], &mut starts, &mut entries), Ok(4));
/// assert_eq!((starts, entries), ([0, 2, 3, 4], [0, 1, 0, 1]));
/// ```
pub fn incidence(
    n: usize,
    ends: &[u16],
    starts: &mut [u16],
    entries: &mut [u16],
) -> Result<usize, Refusal> {
    let mut total = 0;
    // SAFETY: pointers and lengths are those of slices, which don't overlap where one is `&mut`.
    let number = unsafe {
        ffi::wg_incidence(
            n,
            ends.as_ptr(),
            ends.len(),
            starts.as_mut_ptr(),
            starts.len(),
            entries.as_mut_ptr(),
            entries.len(),
            &mut total,
        )
    };
    answer(number, total)
}

/// Gives each node 0 or 1 so that neighbours differ, or refuses by [`Refusal::OddClosedWalk`] where that can't be done.
/// The lowest node of each component gets 1. There are 2 days, or 1 if there is no edge, or 0 if there is no node.
///
/// ```
/// use wulgranite::{two_color, Refusal};
/// let mut colors = [0; 3];
/// assert_eq!(two_color(3, &[1, 2], &mut colors), Ok(2));
/// assert_eq!(colors, [1, 1, 0]);
/// assert_eq!(two_color(3, &[], &mut colors), Ok(1));
/// assert_eq!(colors, [1, 1, 1]);
/// assert_eq!(two_color(3, &[0, 1, 1, 2, 0, 2], &mut colors), Err(Refusal::OddClosedWalk));
/// ```
pub fn two_color(n: usize, ends: &[u16], colors: &mut [u8]) -> Result<usize, Refusal> {
    let mut days = 0;
    // SAFETY: as above.
    let number = unsafe {
        ffi::wg_two_color(
            n,
            ends.as_ptr(),
            ends.len(),
            colors.as_mut_ptr(),
            colors.len(),
            &mut days,
        )
    };
    answer(number, days)
}

/// Colours the nodes by [`ColoringStrategy::Degree`]; neighbours differ. No colour below the number of days is left out.
///
/// ```
/// let mut colors = [0; 3];
/// assert_eq!(wulgranite::greedy_node_color(3, &[0, 1, 0, 2], &mut colors), Ok(2));
/// assert_eq!(colors, [0, 1, 1]);
/// ```
pub fn greedy_node_color(n: usize, ends: &[u16], colors: &mut [u16]) -> Result<usize, Refusal> {
    let mut days = 0;
    // SAFETY: as above.
    let number = unsafe {
        ffi::wg_greedy_node_color(
            n,
            ends.as_ptr(),
            ends.len(),
            colors.as_mut_ptr(),
            colors.len(),
            &mut days,
        )
    };
    answer(number, days)
}

/// The same with presets, which stay: a preset of [`NONE`] is none. They may leave out colours, which are no days then.
///
/// ```
/// use wulgranite::NONE;
/// let mut colors = [0; 3];
/// let presets = [9, NONE, NONE];
/// assert_eq!(wulgranite::greedy_node_color_with_preset_colors(3, &[0, 1, 0, 2], &presets, &mut colors), Ok(2));
/// assert_eq!(colors, [9, 0, 0]);
/// ```
pub fn greedy_node_color_with_preset_colors(
    n: usize,
    ends: &[u16],
    presets: &[u16],
    colors: &mut [u16],
) -> Result<usize, Refusal> {
    let mut days = 0;
    // SAFETY: as above.
    let number = unsafe {
        ffi::wg_greedy_node_color_with_preset_colors(
            n,
            ends.as_ptr(),
            ends.len(),
            presets.as_ptr(),
            presets.len(),
            colors.as_mut_ptr(),
            colors.len(),
            &mut days,
        )
    };
    answer(number, days)
}

/// The same by any strategy. Without presets none leaves out a colour below the number of days.
///
/// ```
/// use wulgranite::{ColoringStrategy, NONE};
/// let mut colors = [0; 4];
/// let path = [0, 1, 1, 2, 2, 3];
/// let strategy = ColoringStrategy::Saturation;
/// assert_eq!(
///     wulgranite::greedy_node_color_with_coloring_strategy(4, &path, &[NONE; 4], strategy, &mut colors),
///     Ok(2)
/// );
/// assert_eq!(colors, [1, 0, 1, 0]);
/// ```
pub fn greedy_node_color_with_coloring_strategy(
    n: usize,
    ends: &[u16],
    presets: &[u16],
    strategy: ColoringStrategy,
    colors: &mut [u16],
) -> Result<usize, Refusal> {
    let mut days = 0;
    // SAFETY: as above.
    let number = unsafe {
        ffi::wg_greedy_node_color_with_coloring_strategy(
            n,
            ends.as_ptr(),
            ends.len(),
            presets.as_ptr(),
            presets.len(),
            strategy as u8,
            colors.as_mut_ptr(),
            colors.len(),
            &mut days,
        )
    };
    answer(number, days)
}

/// Colours the edges by [`ColoringStrategy::Degree`]; edges that share an end differ. No colour below the number of days is
/// left out.
///
/// ```
/// let mut colors = [0; 4];
/// assert_eq!(wulgranite::greedy_edge_color(4, &[0, 1, 1, 2, 0, 2, 2, 3], &mut colors), Ok(3));
/// assert_eq!(colors, [2, 0, 1, 2]);
/// ```
pub fn greedy_edge_color(n: usize, ends: &[u16], colors: &mut [u16]) -> Result<usize, Refusal> {
    let mut days = 0;
    // SAFETY: as above.
    let number = unsafe {
        ffi::wg_greedy_edge_color(
            n,
            ends.as_ptr(),
            ends.len(),
            colors.as_mut_ptr(),
            colors.len(),
            &mut days,
        )
    };
    answer(number, days)
}

/// The same by any strategy, with presets, which stay and may leave out colours.
///
/// ```
/// use wulgranite::{ColoringStrategy, NONE};
/// let mut colors = [0; 2];
/// let strategy = ColoringStrategy::IndependentSet;
/// assert_eq!(
///     wulgranite::greedy_edge_color_with_coloring_strategy(3, &[0, 1, 1, 2], &[NONE, 0], strategy, &mut colors),
///     Ok(2)
/// );
/// assert_eq!(colors, [1, 0]);
/// ```
pub fn greedy_edge_color_with_coloring_strategy(
    n: usize,
    ends: &[u16],
    presets: &[u16],
    strategy: ColoringStrategy,
    colors: &mut [u16],
) -> Result<usize, Refusal> {
    let mut days = 0;
    // SAFETY: as above.
    let number = unsafe {
        ffi::wg_greedy_edge_color_with_coloring_strategy(
            n,
            ends.as_ptr(),
            ends.len(),
            presets.as_ptr(),
            presets.len(),
            strategy as u8,
            colors.as_mut_ptr(),
            colors.len(),
            &mut days,
        )
    };
    answer(number, days)
}

/// Writes the pairs of the line graph, two numbers each; edge k becomes node k. The answer is the number of pairs; numbers
/// beyond them are unchanged.
///
/// ```
/// let mut list = [0; 10];
/// assert_eq!(wulgranite::line_graph(4, &[0, 1, 0, 2, 1, 2, 0, 3], &mut list), Ok(5));
/// assert_eq!(list, [3, 1, 3, 0, 1, 0, 2, 0, 2, 1]);
/// ```
pub fn line_graph(n: usize, ends: &[u16], list: &mut [u16]) -> Result<usize, Refusal> {
    let mut pairs = 0;
    // SAFETY: as above.
    let number = unsafe {
        ffi::wg_line_graph(
            n,
            ends.as_ptr(),
            ends.len(),
            list.as_mut_ptr(),
            list.len(),
            &mut pairs,
        )
    };
    answer(number, pairs)
}

/// Colours the edges by Misra and Gries: with D the most edges at a node, colours are 0 to D, and edges that share an end
/// differ. No colour below the number of days is left out. Of graphs without loops and double edges none is refused.
///
/// ```
/// let mut days = [0; 4];
/// assert_eq!(wulgranite::misra_gries_edge_color(4, &[0, 1, 1, 2, 0, 2, 2, 3], &mut days), Ok(3));
/// assert_eq!(days, [2, 1, 0, 2]);
/// ```
pub fn misra_gries_edge_color(
    n: usize,
    ends: &[u16],
    colors: &mut [u16],
) -> Result<usize, Refusal> {
    let mut days = 0;
    // SAFETY: as above.
    let number = unsafe {
        ffi::wg_misra_gries_edge_color(
            n,
            ends.as_ptr(),
            ends.len(),
            colors.as_mut_ptr(),
            colors.len(),
            &mut days,
        )
    };
    answer(number, days)
}

/// Colours the last edge too, by the step that it has in [`misra_gries_edge_color`], from the stored colours of the others,
/// which the step may change, as it does in the whole run. With D the most edges at a node, the last one counted, colours
/// are 0 to D, and edges that share an end differ. Colours that [`misra_gries_edge_color`] gives the others become those that
/// it gives all edges; other stored colours may leave some out, and then the answer may, too. Refuses by
/// [`Refusal::BadStoredColors`] where a stored colour is above D, or two edges that share an end have the same one. Without
/// edges nothing is stored.
///
/// ```
/// use wulgranite::{misra_gries_add_edge, misra_gries_edge_color, Refusal};
/// // Three matches have their days when a fourth comes.
/// let matches = [0, 1, 1, 2, 0, 2, 2, 3];
/// let (mut stored, mut days) = ([0; 3], [0; 4]);
/// assert_eq!(misra_gries_edge_color(4, &matches[..6], &mut stored), Ok(3));
/// assert_eq!(stored, [0, 1, 2]);
/// assert_eq!(misra_gries_add_edge(4, &matches, &stored, &mut days), Ok(3));
/// assert_eq!(days, [2, 1, 0, 2]);
/// // The three may have other days,
/// assert_eq!(misra_gries_add_edge(4, &matches, &[3, 1, 0], &mut days), Ok(4));
/// assert_eq!(days, [3, 1, 2, 0]);
/// // but no club two matches on one.
/// let twice = misra_gries_add_edge(4, &matches, &[0, 1, 1], &mut days);
/// assert_eq!(twice, Err(Refusal::BadStoredColors));
/// ```
pub fn misra_gries_add_edge(
    n: usize,
    ends: &[u16],
    stored: &[u16],
    colors: &mut [u16],
) -> Result<usize, Refusal> {
    let mut days = 0;
    // SAFETY: as above.
    let number = unsafe {
        ffi::wg_misra_gries_add_edge(
            n,
            ends.as_ptr(),
            ends.len(),
            stored.as_ptr(),
            stored.len(),
            colors.as_mut_ptr(),
            colors.len(),
            &mut days,
        )
    };
    answer(number, days)
}

/// Of two lists of colours the first `m` numbers of whichever has fewer days among them, of the first list
/// where they have equally many. A list with [`NONE`] among those `m` loses to one without it; if both have it, the first
/// is handed back. Where `m` is above either length, the part handed back is empty, at the front of the first list. The
/// lists may have any length.
///
/// ```
/// use wulgranite::{fewer_days, NONE};
/// // Matches on days 9 and 0 take two days, those on days 0, 1 and 2 take three.
/// assert_eq!(fewer_days(&[0, 1, 2], &[9, 0, 9], 3), [9, 0, 9]);
/// assert_eq!(fewer_days(&[0, 1, 2], &[9, 0, 8], 3), [0, 1, 2]);
/// // A match without a day is worse than one more day.
/// assert_eq!(fewer_days(&[4, NONE], &[0, 1], 2), [0, 1]);
/// assert_eq!(fewer_days(&[4, NONE], &[0, 1], 3), []);
/// ```
pub fn fewer_days<'a>(first: &'a [u16], second: &'a [u16], m: usize) -> &'a [u16] {
    let mut length = 0;
    // SAFETY: as above.
    let list = unsafe {
        ffi::wg_fewer_days(
            first.as_ptr(),
            first.len(),
            second.as_ptr(),
            second.len(),
            m,
            &mut length,
        )
    };
    match list {
        0 => &first[..length],
        _ => &second[..length],
    }
}

/// The bits of tags 3 and 4, and what stands for the method where none is named.
const TAG_COLORS: usize = 4;
const TAG_METHOD: usize = 8;
const UNNAMED: u8 = 255;

/// How a saved list was coloured.
#[derive(Clone, Copy, Debug, PartialEq, Eq, Hash)]
pub enum Method {
    /// Greedily, by [`ColoringStrategy::Degree`].
    Degree = 0,
    /// Greedily, by [`ColoringStrategy::Saturation`].
    Saturation = 1,
    /// Greedily, by [`ColoringStrategy::IndependentSet`].
    IndependentSet = 2,
    /// By [`misra_gries_edge_color`].
    MisraGries = 3,
}

impl Method {
    fn of(number: usize) -> Option<Method> {
        match number {
            0 => Some(Method::Degree),
            1 => Some(Method::Saturation),
            2 => Some(Method::IndependentSet),
            3 => Some(Method::MisraGries),
            _ => None,
        }
    }
}

/// What a house file holds besides its ends and colours.
#[derive(Clone, Copy, Debug, PartialEq, Eq, Hash)]
pub struct GraphFile {
    /// The node count, not tested.
    pub nodes: usize,
    /// The number of edges.
    pub edges: usize,
    /// Bit t - 1 is set where tag t stood.
    pub tags: usize,
    /// How it was coloured, where tag 4 stood.
    pub method: Option<Method>,
}

impl GraphFile {
    /// Whether tag 3 stood, so that the file has colours.
    pub fn has_colors(&self) -> bool {
        self.tags & TAG_COLORS != 0
    }
}

/// Reads a house file. Its ends are copied to the front of `ends` and its colours, if it has any, to the front of
/// `colors`; numbers beyond them are unchanged. Neither is tested; a colour of [`NONE`] is none.
///
/// ```
/// use wulgranite::{read_graph_file, GraphFile, Method, Refusal};
/// let (mut ends, mut colors) = ([0; 8192], [0; 4096]);
/// let list = [1, 2, 0, 3, 0, 2, 4, 0, 1, 0, 2, 0];
/// let read = GraphFile { nodes: 3, edges: 1, tags: 3, method: None };
/// assert_eq!(read_graph_file(&list, &mut ends, &mut colors), Ok(read));
/// assert_eq!(ends[..2], [1, 2]);
/// // The same with the colour 5, found by Misra and Gries.
/// let saved = [1, 2, 0, 3, 0, 2, 4, 0, 1, 0, 2, 0, 3, 2, 0, 5, 0, 4, 1, 0, 3];
/// let read = GraphFile { nodes: 3, edges: 1, tags: 15, method: Some(Method::MisraGries) };
/// assert_eq!(read_graph_file(&saved, &mut ends, &mut colors), Ok(read));
/// assert_eq!(colors[0], 5);
/// assert_eq!(read_graph_file(&[], &mut ends, &mut colors), Err(Refusal::BadFile));
/// ```
pub fn read_graph_file(
    bytes: &[u8],
    ends: &mut [u16],
    colors: &mut [u16],
) -> Result<GraphFile, Refusal> {
    let (mut nodes, mut edges, mut tags, mut method) = (0, 0, 0, 0);
    // SAFETY: as above.
    let number = unsafe {
        ffi::wg_read_graph_file(
            bytes.as_ptr(),
            bytes.len(),
            ends.as_mut_ptr(),
            ends.len(),
            colors.as_mut_ptr(),
            colors.len(),
            &mut nodes,
            &mut edges,
            &mut tags,
            &mut method,
        )
    };
    let file = GraphFile {
        nodes,
        edges,
        tags,
        method: Method::of(method),
    };
    answer(number, file)
}

/// Writes a house file to the front of `output`: the graph, its colours if there are any, and how it was coloured, which
/// only goes with colours. The answer is the number of bytes, at most [`MAX_FILE`]; those beyond are unchanged. Reading
/// them gives the same again, and a file that was read has the same bytes again, unless its graph is refused.
///
/// ```
/// use wulgranite::{write_graph_file, Method, Refusal};
/// let mut bytes = [0; 21];
/// let method = Some(Method::MisraGries);
/// assert_eq!(write_graph_file(3, &[1, 2], Some(&[5]), method, &mut bytes), Ok(21));
/// assert_eq!(bytes, [1, 2, 0, 3, 0, 2, 4, 0, 1, 0, 2, 0, 3, 2, 0, 5, 0, 4, 1, 0, 3]);
/// assert_eq!(write_graph_file(3, &[1, 2], None, method, &mut bytes), Err(Refusal::BadFile));
/// ```
pub fn write_graph_file(
    n: usize,
    ends: &[u16],
    colors: Option<&[u16]>,
    method: Option<Method>,
    output: &mut [u8],
) -> Result<usize, Refusal> {
    let tags = colors.map_or(0, |_| TAG_COLORS) + method.map_or(0, |_| TAG_METHOD);
    let colors = colors.unwrap_or(&[]);
    let mut length = 0;
    // SAFETY: as above.
    let number = unsafe {
        ffi::wg_write_graph_file(
            n,
            ends.as_ptr(),
            ends.len(),
            colors.as_ptr(),
            colors.len(),
            tags as u8,
            method.map_or(UNNAMED, |known| known as u8),
            output.as_mut_ptr(),
            output.len(),
            &mut length,
        )
    };
    answer(number, length)
}

/// A house file's contents, with memory of its own.
///
/// ```
/// use wulgranite::{misra_gries_edge_color, Method, Saved};
/// // Four clubs, four matches, no days yet.
/// let list = [1, 2, 0, 4, 0, 2, 16, 0, 0, 0, 1, 0, 1, 0, 2, 0, 0, 0, 2, 0, 2, 0, 3, 0];
/// let mut saved = Saved::read(&list)?;
/// let mut days = vec![0; saved.ends.len() / 2];
/// misra_gries_edge_color(saved.nodes, &saved.ends, &mut days)?;
/// saved.colors = Some(days);
/// saved.method = Some(Method::MisraGries);
/// assert_eq!(Saved::read(&saved.write()?), Ok(saved));
/// # Ok::<(), wulgranite::Refusal>(())
/// ```
#[derive(Clone, Debug, PartialEq, Eq, Hash)]
pub struct Saved {
    /// The node count, not tested.
    pub nodes: usize,
    /// Two ends for each edge, not tested.
    pub ends: Vec<u16>,
    /// A colour for each edge, or [`NONE`]; not tested.
    pub colors: Option<Vec<u16>>,
    /// How it was coloured; only beside colours.
    pub method: Option<Method>,
}

impl Saved {
    /// Reads a house file, or refuses by [`Refusal::BadFile`].
    pub fn read(bytes: &[u8]) -> Result<Saved, Refusal> {
        let mut ends = vec![0; 2 * MAX_EDGES];
        let mut colors = vec![0; MAX_EDGES];
        let file = read_graph_file(bytes, &mut ends, &mut colors)?;
        ends.truncate(2 * file.edges);
        colors.truncate(file.edges);
        Ok(Saved {
            nodes: file.nodes,
            ends,
            colors: file.has_colors().then_some(colors),
            method: file.method,
        })
    }

    /// The bytes of the house file. Refuses where the graph checks do, by [`Refusal::BadFile`] where there is a method and no
    /// colours, and by [`Refusal::WrongLength`] where there is not one colour for each edge.
    pub fn write(&self) -> Result<Vec<u8>, Refusal> {
        let mut bytes = vec![0; MAX_FILE];
        let colors = self.colors.as_deref();
        let length = write_graph_file(self.nodes, &self.ends, colors, self.method, &mut bytes)?;
        bytes.truncate(length);
        Ok(bytes)
    }
}
