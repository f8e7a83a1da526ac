//! The states: how many alarms there are, and at which the pump stops.

use super::documents::{ALARM, STOPS};
use crate::entries::{set, Entries};
use reference::values::Value;

/// Alarms by number.
pub const PRESSURE: i32 = 0;
pub const AIR: i32 = 1;
pub const DOOR: i32 = 2;

/// Of three alarms the pump stops at every set with air in the line.
pub fn closed() -> Entries {
    entries(3, &[&[AIR], &[PRESSURE, AIR], &[AIR, DOOR], &[PRESSURE, AIR, DOOR]])
}

/// With pressure as well it goes on.
pub fn gap() -> Entries {
    entries(3, &[&[AIR], &[AIR, DOOR], &[PRESSURE, AIR, DOOR]])
}

/// A fourth alarm.
pub fn four() -> Entries {
    entries(4, &[])
}

fn entries(alarms: i32, stops: &[&[i32]]) -> Entries {
    let alarm = |&number: &i32| Value::Element(ALARM, number);
    let sets = stops.iter().map(|raised| set(raised.iter().map(alarm)));
    vec![(ALARM, Value::Integer(alarms)), (STOPS, set(sets))]
}

/// The state's words: a given has its size alone.
pub fn words(entries: &Entries) -> Vec<u32> {
    let coded = |(identifier, value): &(u32, Value)| match value {
        Value::Integer(size) if *identifier == ALARM => vec![*size as u32],
        other => other.words().iter().map(|&word| word as u32).collect(),
    };
    coding::join(&entries.iter().map(coded).collect::<Vec<_>>())
}
