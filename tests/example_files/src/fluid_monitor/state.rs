//! A recording as a state of the document.

use super::monitor::{Reading, RATE, STEP};
use super::names;
use crate::entries::{numbers, table, Entries};
use reference::values::Value;

/// The values in the order in which the document declares their identifiers.
pub fn entries(readings: &[Reading]) -> Entries {
    let with_a_next = 0..readings.len() as i32 - 1;
    vec![
        (names::RATE, Value::Integer(RATE)),
        (names::STEP, Value::Integer(STEP)),
        (names::TICKS, numbers(with_a_next)),
        (names::CLOCK, by_tick(readings, |reading| reading.clock)),
        (names::DRAWN, by_tick(readings, |reading| reading.drawn)),
        (names::SHOWN, by_tick(readings, |reading| reading.shown)),
    ]
}

/// Pairs of a tick, counted from the first reading, and what was read then.
fn by_tick(readings: &[Reading], part: fn(&Reading) -> i32) -> Value {
    table((0..).zip(readings.iter().map(part)))
}
