//! The files of examples/fluid-monitor that are made here.

use super::monitor::{record, FAR, NEAR};
use super::names::NAMES;
use super::state::entries;
use super::volume;
use crate::entries::words;
use crate::listing;
use crate::written::{bytes, Example, Files};

pub const EXAMPLE: Example = Example("fluid-monitor");

/// The words of the document.
pub fn document() -> Vec<u32> {
    coding::encode(&volume::volume())
}

/// The words of the state recorded after so many ticks.
pub fn recorded_after(ticks: u32) -> Vec<u32> {
    words(&entries(&record(ticks)))
}

/// Each file's name and bytes.
pub fn all() -> Files {
    let document = document();
    let listed = |ticks| {
        let recorded = entries(&record(ticks));
        listing::state(&recorded, &words(&recorded), NAMES).into_bytes()
    };
    vec![
        ("volume.txt", listing::document(&volume::volume(), &document, NAMES).into_bytes()),
        ("volume.z", bytes(&document)),
        ("near.state", bytes(&recorded_after(NEAR))),
        ("near.txt", listed(NEAR)),
        ("far.state", bytes(&recorded_after(FAR))),
        ("far.txt", listed(FAR)),
    ]
}
