//! The given portgraph source as a crate. Its own `lib.rs` is a module here; `crate::..` inside it still finds every
//! name, since all of them stand at the root too.

include!(concat!(env!("OUT_DIR"), "/root.rs"));

pub use given::*;
