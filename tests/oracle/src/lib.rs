//! The published files coloring.rs, line_graph.rs and dictmap.rs, unchanged, as a library that their own doc examples
//! accept. The other modules are the oracle's own.

pub mod coloring;
pub mod dictmap;
pub mod line_graph;
pub mod rules;
pub mod shapes;

pub use petgraph;
