//! The oracle: the given Rust's answers about step maps (document 01), and what is needed to record them.
//!
//! - [`step_map`]: the graph, written for the traits of the source's `view.rs`;
//! - [`oracle`]: every question of document 01, answered by the Rust alone, and only inside the Rust's domain;
//! - [`random`], [`drawing`]: random numbers and random maps, lists and ports;
//! - [`recording`], [`asking`]: what is recorded of a map, and how its questions are chosen;
//! - [`text`], [`antt`], [`figures`]: the two formats and the summary;
//! - [`map_bytes`], [`preparing`]: the map as bytes and 01's preparing, on words;
//! - [`prepare_cases`], [`prepare_report`]: the stored cases of preparing, and what is to be written of each.

pub mod antt;
pub mod asking;
pub mod drawing;
pub mod figures;
pub mod map_bytes;
pub mod oracle;
pub mod prepare_cases;
pub mod prepare_report;
pub mod preparing;
pub mod random;
pub mod recording;
pub mod step_map;
pub mod text;
