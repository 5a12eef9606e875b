//! What the host and the recorder of `replay` share: calls of the library, 01 and 02 read plainly, and random calls.
//!
//! - [`call`]: a call with all that is lent to it, and all that it leaves;
//! - [`reading`]: the whole outcome of every call, from their text alone;
//! - [`asker`], [`lists`]: random calls about a map and an area, good and bad.

pub mod asker;
pub mod call;
pub mod lists;
pub mod reading;
