//! Glue: the two given algorithms under the names that the source uses.

pub mod convex;
mod toposort;

pub use convex::{
    ConvexChecker, CreateConvexChecker, LineConvexChecker, LineIndex, LineInterval, LineIntervals,
    Position, TopoConvexChecker,
};
pub use toposort::{toposort, toposort_filtered, TopoSort};
