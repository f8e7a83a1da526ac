//! The fluid monitor's volume routine, as examples/fluid-monitor has it: a
//! coded Z document, and two recorded states of the pump.

pub mod files;
pub mod monitor;
pub mod names;
pub mod state;
pub mod volume;
