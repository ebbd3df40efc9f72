//! A second erasure layer, written from the requirements and the standard alone, for the archive to be compared with.
#![allow(dead_code)]

pub mod answers;
pub mod blocks;
pub mod byte_reader;
pub mod calls;
pub mod closing;
pub mod codes;
pub mod encoder;
pub mod fault;
pub mod gather;
pub mod generator;
pub mod refusals;
pub mod solver;
#[path = "../../support/tables.rs"]
pub mod tables;
pub mod tiles;
pub mod units;

pub use codes::Code;
pub use fault::Fault;
