//! The bag table, as examples/bag-table has it: a table of flow rates that is
//! applied to bag sizes, and states with one rate, none and two for a size.

pub mod documents;
pub mod files;
pub mod states;
