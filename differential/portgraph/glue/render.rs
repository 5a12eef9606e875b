//! Glue: the module is named by the source and nothing in it is used.
