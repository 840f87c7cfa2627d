//! The published files, the same bytes as in tests/oracle, built over the queue in ../heap-queue.
//! rustfmt must not alter them.

#[rustfmt::skip]
#[path = "../../../tests/oracle/src/coloring.rs"]
pub mod coloring;
#[rustfmt::skip]
#[path = "../../../tests/oracle/src/dictmap.rs"]
pub mod dictmap;
#[rustfmt::skip]
#[path = "../../../tests/oracle/src/line_graph.rs"]
pub mod line_graph;
