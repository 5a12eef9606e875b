//! Glue: a name only.

/// Not given, not used.
pub struct Region;
