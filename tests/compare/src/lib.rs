//! Compares the proved library with the reference, call by call.

pub mod areas;
pub mod calls;
pub mod expected;
pub mod growth;
pub mod measure;
pub mod numberings;
pub mod printed;
pub mod program;
pub mod show;
pub mod shrink;
pub mod stack;
pub mod table;
pub mod timed;
