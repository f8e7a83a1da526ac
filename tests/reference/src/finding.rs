//! A refusal: its number in the table of findings and its place.

#[derive(Clone, Copy, PartialEq, Eq, PartialOrd, Ord, Debug)]
pub struct Finding {
    pub number: u32,
    pub place: u32,
}

impl Finding {
    /// The one 64-bit word in which the library's calls give a finding.
    pub fn word(self) -> u64 {
        u64::from(self.number) << 32 | u64::from(self.place)
    }
}

/// A refusal with this number at this place.
pub fn refused<T>(number: u32, place: u32) -> Result<T, Finding> {
    Err(Finding { number, place })
}

/// A refusal unless the condition is met.
pub fn demand(condition: bool, number: u32, place: u32) -> Result<(), Finding> {
    if condition {
        Ok(())
    } else {
        refused(number, place)
    }
}
