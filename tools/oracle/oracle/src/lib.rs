//! Rewrites function records by the Rust's `lvn`, altered as document 02's Point 2 says, or unaltered.

pub mod ops;
pub mod reader;
pub mod writer;

include!(concat!(env!("OUT_DIR"), "/wrapper.rs"));

use cfg::{Cfg, CfgNode, CFG_FIRST_FREE_ID};
use reader::Record;
use std::panic;

/// The record's blocks as the graph that `lvn` takes, in the order of the record.
pub fn graph(record: &mut Record) -> Cfg {
    let mut cfg = Cfg::default();
    for (i, block) in record.blocks.drain(..).enumerate() {
        cfg.blocks.insert(CFG_FIRST_FREE_ID + i, CfgNode::Block(block));
    }
    cfg
}

/// Which Rust: the yardstick for all functions, or that for those without gt and ge.
#[derive(Clone, Copy)]
pub enum Rust {
    /// With gt and ge exchanged for lt and le where they do not fold.
    Altered,
    /// As its commit has it.
    Unaltered,
}

/// The Rust's pass on the blocks of a record.
pub fn lvn(rust: Rust, cfg: Cfg, record: &Record) -> Cfg {
    match rust {
        Rust::Altered => altered::lvn(cfg, &altered::CLIArgs, &record.function),
        Rust::Unaltered => source::lvn(cfg, &source::CLIArgs, &record.function),
    }
}

/// The blocks of a graph put back into their record.
pub fn put_back(cfg: Cfg, record: &mut Record) {
    for node in cfg.blocks.into_values() {
        if let CfgNode::Block(block) = node {
            record.blocks.push(block);
        }
    }
}

/// What the Rust makes of a record.
#[derive(PartialEq)]
pub enum Answer {
    Rewriting(Vec<u8>),
    /// The Rust panicked.
    Panic,
    /// The record or its rewriting could not be brought into the other's form.
    Bad,
}

/// Decodes a record, calls `lvn` and encodes the result.
pub fn rewrite(rust: Rust, bytes: &[u8]) -> Answer {
    let Some(mut record) = reader::read(bytes) else {
        return Answer::Bad;
    };
    let done = panic::catch_unwind(move || {
        let cfg = lvn(rust, graph(&mut record), &record);
        put_back(cfg, &mut record);
        record
    });
    match done {
        Err(_) => Answer::Panic,
        Ok(record) => writer::write(&record).map_or(Answer::Bad, Answer::Rewriting),
    }
}
