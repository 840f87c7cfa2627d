//! A call with all that it is handed, and what comes of it.

#[derive(Clone, Copy, Debug)]
pub enum Call {
    Incidence,
    TwoColor,
    LineGraph,
    NodeColor,
    NodeColorPreset,
    NodeColorStrategy(u8),
    EdgeColor,
    EdgeColorStrategy(u8),
    MisraGries,
    AddEdge,
}

pub const DEGREE: u8 = 0;
pub const SATURATION: u8 = 1;
pub const INDEPENDENT_SET: u8 = 2;
pub const STRATEGIES: [u8; 3] = [DEGREE, SATURATION, INDEPENDENT_SET];

impl Call {
    /// The name under which cases are counted.
    pub fn name(self) -> &'static str {
        match self {
            Call::Incidence => "incidence",
            Call::TwoColor => "two_color",
            Call::LineGraph => "line_graph",
            Call::NodeColor => "greedy_node_color",
            Call::NodeColorPreset => "greedy_node_color_with_preset_colors",
            Call::NodeColorStrategy(DEGREE) => "greedy_node_color_with_coloring_strategy Degree",
            Call::NodeColorStrategy(SATURATION) => {
                "greedy_node_color_with_coloring_strategy Saturation"
            }
            Call::NodeColorStrategy(INDEPENDENT_SET) => {
                "greedy_node_color_with_coloring_strategy IndependentSet"
            }
            Call::NodeColorStrategy(_) => "greedy_node_color_with_coloring_strategy unknown",
            Call::EdgeColor => "greedy_edge_color",
            Call::EdgeColorStrategy(DEGREE) => "greedy_edge_color_with_coloring_strategy Degree",
            Call::EdgeColorStrategy(SATURATION) => {
                "greedy_edge_color_with_coloring_strategy Saturation"
            }
            Call::EdgeColorStrategy(INDEPENDENT_SET) => {
                "greedy_edge_color_with_coloring_strategy IndependentSet"
            }
            Call::EdgeColorStrategy(_) => "greedy_edge_color_with_coloring_strategy unknown",
            Call::MisraGries => "misra_gries_edge_color",
            Call::AddEdge => "misra_gries_add_edge",
        }
    }
}

/// A call, and what it is handed beside the graph.
#[derive(Clone, Copy, Debug)]
pub struct Question<'a> {
    pub call: Call,
    /// The stored colours, for a late match.
    pub presets: &'a [u16],
    /// How many numbers are lent: of starts for incidence, of the line list, or of colours.
    pub lent: usize,
    /// How many entries are lent; for incidence only.
    pub entries: usize,
}

/// What the number behind the report's pointer is before the call.
pub const REPORT_BEFORE: usize = 0x5555_5555;

/// All that can be seen of a call afterwards.
#[derive(Clone, Debug, PartialEq)]
pub struct Outcome {
    /// 0 or the refusal's number.
    pub code: u32,
    pub report: usize,
    pub lent: Vec<u16>,
    pub entries: Vec<u16>,
    /// Whether anything was written that was not lent for writing.
    pub wrote_elsewhere: bool,
}

/// What the file calls are counted under.
pub const READ: &str = "read_graph_file";
pub const WRITE: &str = "write_graph_file";

/// All that the writer is handed.
#[derive(Clone, Debug)]
pub struct Writing {
    pub n: usize,
    pub ends: Vec<u16>,
    pub colors: Vec<u16>,
    pub tags: u8,
    pub method: u8,
    /// How many bytes are lent.
    pub output: usize,
}

/// All that can be seen of the writer afterwards.
#[derive(Clone, Debug, PartialEq)]
pub struct Written {
    pub code: u32,
    pub length: usize,
    pub output: Vec<u8>,
    pub wrote_elsewhere: bool,
}

/// All that can be seen of the reader afterwards.
#[derive(Clone, Debug, PartialEq)]
pub struct FileRead {
    pub code: u32,
    /// Nodes, edges, tags, method.
    pub report: [usize; 4],
    pub ends: Vec<u16>,
    pub colors: Vec<u16>,
    pub wrote_elsewhere: bool,
}

/// All that can be seen of the choice between two lists afterwards.
#[derive(Clone, Debug, PartialEq)]
pub struct Chosen {
    /// 0 for the first, 1 for the second.
    pub list: u32,
    pub length: usize,
    pub wrote_elsewhere: bool,
}
