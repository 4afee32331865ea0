//! cfg/src/lib.rs, unchanged, as the crate cfg.

include!(concat!(env!("OUT_DIR"), "/wrapper.rs"));
pub use source::*;
