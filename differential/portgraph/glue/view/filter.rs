//! Glue: names only.

/// Not given, not used.
pub struct FilteredGraph;
/// Not given, not used.
pub struct LinkFilter;
/// Not given, not used.
pub struct NodeFilter;
/// Not given, not used.
pub struct NodeFiltered;
