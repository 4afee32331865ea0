//! bril-rs/src/program.rs, unchanged, as the crate bril_rs.

include!(concat!(env!("OUT_DIR"), "/wrapper.rs"));
pub use source::*;
