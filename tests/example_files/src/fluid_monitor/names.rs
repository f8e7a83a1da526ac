//! The names of the document: a number there, a word for the reader here.

use crate::names::{Names, NONE};
use coding::make::id;

/// Microlitres that the pump draws off in a millisecond.
pub const RATE: u32 = id(1, NONE);
/// Milliseconds from one tick to the next.
pub const STEP: u32 = id(2, NONE);
/// The recorded ticks that have a next one.
pub const TICKS: u32 = id(3, NONE);
/// The routine's session clock at each tick, in milliseconds.
pub const CLOCK: u32 = id(4, NONE);
/// The pump encoder's count at each tick, in microlitres.
pub const DRAWN: u32 = id(5, NONE);
/// The volume on the display at each tick, in microlitres.
pub const SHOWN: u32 = id(6, NONE);
/// Microlitres that the pump draws off from one tick to the next.
pub const PORTION: u32 = id(7, NONE);
/// The tick that a constraint speaks of.
pub const I: u32 = id(8, NONE);
/// The components of a chart line.
pub const TICK: u32 = id(9, NONE);
pub const VOLUME: u32 = id(10, NONE);
/// The schema of a chart line; a schema name is a bare name.
pub const CHART_LINE: u32 = 11;

/// The words for a reader.
pub const NAMES: Names = Names(&[
    "rate",
    "step",
    "ticks",
    "clock",
    "drawn",
    "shown",
    "portion",
    "i",
    "tick",
    "volume",
    "ChartLine",
]);
