//! The files of examples/alarms that are made here.

use super::documents::{alarms, numbers, NAMES};
use super::states::{closed, four, gap, words};
use crate::entries::Entries;
use crate::listing;
use crate::written::{bytes, Example, Files};

pub const EXAMPLE: Example = Example("alarms");

/// Whole numbers whose power has 42 words, and whose power has 98.
pub const FEW: u32 = 3;
pub const MANY: u32 = 4;

/// The state of a document without names.
pub const NO_NAMES: [u32; 1] = [0];

/// Each file's name and bytes.
pub fn all() -> Files {
    let document = coding::encode(&alarms());
    let listed = |entries: &Entries| listing::state(entries, &words(entries), NAMES).into_bytes();
    vec![
        ("alarms.txt", listing::document(&alarms(), &document, NAMES).into_bytes()),
        ("alarms.z", bytes(&document)),
        ("closed.state", bytes(&words(&closed()))),
        ("closed.txt", listed(&closed())),
        ("gap.state", bytes(&words(&gap()))),
        ("gap.txt", listed(&gap())),
        ("four.state", bytes(&words(&four()))),
        ("of-three.z", bytes(&coding::encode(&numbers(FEW)))),
        ("none.state", bytes(&NO_NAMES)),
        ("of-four.z", bytes(&coding::encode(&numbers(MANY)))),
    ]
}
