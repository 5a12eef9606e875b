//! Glue: names only.

/// Not given, not used.
pub struct CopySubgraphError;
/// Not given, not used.
pub struct Subgraph;
