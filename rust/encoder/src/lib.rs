//! Compiles `stored.rs` as mos-core would, over the unmodified parser that `tools/oracle` holds.
pub use oracle::parser;

pub mod stored;
