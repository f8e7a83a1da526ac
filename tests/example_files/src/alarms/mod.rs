//! The pump's alarms, as examples/alarms has them: an axiom over the power of
//! a given of three, and a power that passes 64 words.

pub mod documents;
pub mod files;
pub mod states;
