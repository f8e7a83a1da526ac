//! A checker and evaluator for coded Z documents, written from document 01 and
//! READINGS.md alone, and from document 02 for the requests that have landed.
//! The proved library is compared with it, so nothing here is taken from the
//! proved definitions. Clear before fast.

pub mod build;
pub mod canonical;
pub mod check;
pub mod check_expr;
pub mod check_schema;
pub mod dictionary;
pub mod enumerate;
pub mod evaluate;
pub mod finding;
pub mod fit;
pub mod flat;
pub mod kinds;
pub mod layout;
pub mod limits;
pub mod print;
pub mod quantify;
pub mod reading;
pub mod relate;
pub mod run;
pub mod scope;
pub mod state;
pub mod tree;
pub mod twice;
pub mod types;
pub mod unify;
pub mod values;

pub use canonical::{canonical, canonical_into};
pub use check::{check, check_into, Checked};
pub use finding::Finding;
pub use fit::fit;
pub use print::print;
pub use reading::read;
pub use run::{run, Ending, Outcome};
pub use state::check_state;

/// The least number of words of a work area (21).
pub const WORK_WORDS: usize = 16_384;
