//! The names of a document: a number there, a word for the reader here.

use coding::make::id;

/// The stroke of identifiers that have none.
pub const NONE: u32 = 0;

/// The word of each name, name 1 first.
#[derive(Clone, Copy)]
pub struct Names(pub &'static [&'static str]);

impl Names {
    /// The word of a bare name.
    pub fn of_name(self, name: u32) -> &'static str {
        self.0[name as usize - 1]
    }

    /// The word of an identifier, all of which are without a stroke here.
    pub fn of_identifier(self, identifier: u32) -> &'static str {
        self.of_name(identifier / id(1, NONE))
    }
}
