//! The states: a table, and which of its sizes are in use.

use super::documents::{MINUTES, MOST, RATE, SIZES};
use crate::entries::{numbers, table, Entries};
use reference::values::Value;

/// A bag size in millilitres and a flow rate in millilitres a minute.
pub type Row = (i32, i32);

/// The rows of the small and of the middle bag.
pub const SMALL: Row = (1_000, 100);
pub const MIDDLE: Row = (2_500, 150);
/// The rows of the large bag: at a rate that is allowed, and at a higher one.
pub const LARGE: Row = (5_000, 200);
pub const LARGE_FAST: Row = (5_000, 280);
/// A second row of the small bag.
const SMALL_FAST: Row = (1_000, 120);

const HIGHEST_RATE: i32 = 250;
const MINUTES_ALLOWED: i32 = 30;

/// Each size in use has one rate.
pub fn right() -> Entries {
    entries(&[SMALL, MIDDLE, LARGE], &[SMALL, MIDDLE, LARGE])
}

/// The large bag has its higher rate.
pub fn high() -> Entries {
    entries(&[SMALL, MIDDLE, LARGE_FAST], &[SMALL, MIDDLE, LARGE])
}

/// The large bag has both rates.
pub fn twice() -> Entries {
    entries(&[SMALL, MIDDLE, LARGE, LARGE_FAST], &[SMALL, MIDDLE, LARGE])
}

/// The middle bag has no rate.
pub fn missing() -> Entries {
    entries(&[SMALL, LARGE], &[SMALL, MIDDLE, LARGE])
}

/// The small bag has two rates, and is not in use.
pub fn unused() -> Entries {
    entries(&[SMALL, SMALL_FAST, MIDDLE, LARGE], &[MIDDLE, LARGE])
}

/// The state with these rows in its table, and with their sizes in use.
fn entries(rows: &[Row], used: &[Row]) -> Entries {
    vec![
        (RATE, table(rows.iter().copied())),
        (SIZES, numbers(used.iter().map(|&(size, _)| size))),
        (MOST, Value::Integer(HIGHEST_RATE)),
        (MINUTES, Value::Integer(MINUTES_ALLOWED)),
    ]
}
