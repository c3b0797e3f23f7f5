//! A second implementation of documents 01 and 02, written from the documents
//! alone.
//!
//! It favours closeness to the documents' words over speed: the verified
//! library is compared with it, so it has to be easy to check by reading.

pub mod bench;
pub mod cases;
pub mod changes;
pub mod classes;
pub mod core;
pub mod forward;
pub mod full;
pub mod netlist;
pub mod program;
pub mod random;
pub mod sets;
pub mod stack;
pub mod text;
pub mod walk;
