//! Glue: the names that the traits in `view.rs` mention. The graph itself is the caller's own type.

use crate::{NodeIndex, PortIndex, PortOffset};
use std::marker::PhantomData;

/// Not given, not used.
pub struct PortGraph;

/// Why two ports could not be linked. Only the case that `view.rs` builds.
pub enum LinkError<N, P, O> {
    /// The node has no port at the offset.
    UnknownOffset {
        /// The node asked.
        node: NodeIndex<N>,
        /// The offset it does not have.
        offset: PortOffset<O>,
    },
    /// Never built: it mentions the parameter that the other case does not.
    Other(PhantomData<PortIndex<P>>),
}

/// What happened to a port: only mentioned by `PortMut`, which no graph here implements.
pub struct PortOperation<P>(PhantomData<P>);
