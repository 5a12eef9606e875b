//! How many bytes of stack a call needs at most, whatever is lent to it, beside what the caller uses itself.
//!
//! The figures are those of the C header `varddohas.h`, which are measured at every run of the tests.
//!
//! ```
//! // a thread with a small stack: what its calls need, and 64 KiB for its own
//! let thread = std::thread::Builder::new().stack_size(varddohas::stack::LARGEST + 64 * 1024);
//! let prepared = thread.spawn(|| varddohas::prepare(&[], &mut []))?.join();
//! assert_eq!(prepared.ok(), Some(Err(varddohas::Refusal::Malformed)));
//! # Ok::<(), std::io::Error>(())
//! ```

/// The most that any call needs.
pub const LARGEST: usize = 163_840;

/// [`prepare`](crate::prepare)
pub const PREPARE: usize = 81_920;

/// [`line_convex_checker::is_node_convex`](crate::line_convex_checker::is_node_convex)
pub const LINE_IS_NODE_CONVEX: usize = 135_168;

/// [`line_convex_checker::is_convex`](crate::line_convex_checker::is_convex)
pub const LINE_IS_CONVEX: usize = 135_168;

/// [`topo_convex_checker::is_node_convex`](crate::topo_convex_checker::is_node_convex)
pub const TOPO_IS_NODE_CONVEX: usize = 135_168;

/// [`topo_convex_checker::is_convex`](crate::topo_convex_checker::is_convex)
pub const TOPO_IS_CONVEX: usize = 135_168;

/// [`line_convex_checker::get_intervals_from_nodes`](crate::line_convex_checker::get_intervals_from_nodes)
pub const GET_INTERVALS_FROM_NODES: usize = 147_456;

/// [`line_convex_checker::is_convex_by_intervals`](crate::line_convex_checker::is_convex_by_intervals)
pub const IS_CONVEX_BY_INTERVALS: usize = 147_456;

/// [`line_convex_checker::try_extend_intervals`](crate::line_convex_checker::try_extend_intervals)
pub const TRY_EXTEND_INTERVALS: usize = 163_840;

/// [`line_convex_checker::nodes_in_intervals`](crate::line_convex_checker::nodes_in_intervals)
pub const NODES_IN_INTERVALS: usize = 155_648;

/// [`line_convex_checker::lines_at_port`](crate::line_convex_checker::lines_at_port)
pub const LINES_AT_PORT: usize = 135_168;

/// [`line_convex_checker::view_lines_at_port`](crate::line_convex_checker::view_lines_at_port)
pub const VIEW_LINES_AT_PORT: usize = 135_168;

/// [`path::show_path`](crate::path::show_path)
pub const SHOW_PATH: usize = 135_168;
