//! The kinds of input that are compared. Those of `paper`, `examples` and `limits` come once, the others round by round.

pub mod drawn;
pub mod examples;
pub mod layers;
pub mod limits;
pub mod maps;
pub mod other_tables;
pub mod pairs;
pub mod paper;
pub mod small;
pub mod tables;
