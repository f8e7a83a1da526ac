//! The files of examples/bag-table that are made here.

use super::documents::{bag_table, NAMES};
use super::states::{high, missing, right, twice, unused};
use crate::entries::{words, Entries};
use crate::listing;
use crate::written::{bytes, Example, Files};

pub const EXAMPLE: Example = Example("bag-table");

/// Each file's name and bytes.
pub fn all() -> Files {
    let document = coding::encode(&bag_table());
    let state = |entries: &Entries| bytes(&words(entries));
    let listed = |entries: &Entries| listing::state(entries, &words(entries), NAMES).into_bytes();
    vec![
        ("bag-table.txt", listing::document(&bag_table(), &document, NAMES).into_bytes()),
        ("bag-table.z", bytes(&document)),
        ("right.state", state(&right())),
        ("right.txt", listed(&right())),
        ("high.state", state(&high())),
        ("high.txt", listed(&high())),
        ("twice.state", state(&twice())),
        ("twice.txt", listed(&twice())),
        ("missing.state", state(&missing())),
        ("missing.txt", listed(&missing())),
        ("unused.state", state(&unused())),
        ("unused.txt", listed(&unused())),
    ]
}
