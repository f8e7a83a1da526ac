//! What the calls answer: one number each, 0 where there is no finding, else
//! number * 2^32 + place.

/// A finding's number in the tables of documents 01 and 02, and its place: a
/// node, an entry, or 0.
#[derive(Clone, Copy, PartialEq, Eq, Debug)]
pub struct Finding {
    pub number: u32,
    pub place: u32,
}

/// How a run without trouble ends.
#[derive(Clone, Copy, PartialEq, Eq, Debug)]
pub enum Ending {
    Holds,
    /// At the Decl whose test is false, or at the Axiom or Constraint whose
    /// predicate is false.
    FailsAt(u32),
}

/// The number of a run that fails.
const FAILS: u32 = 1;

/// An answer as the one number that the call gave.
pub trait Answer {
    fn code(&self) -> u64;
}

fn coded(number: u32, place: u32) -> u64 {
    u64::from(number) << 32 | u64::from(place)
}

impl Answer for Result<(), Finding> {
    fn code(&self) -> u64 {
        match self {
            Ok(()) => 0,
            Err(finding) => coded(finding.number, finding.place),
        }
    }
}

impl Answer for Result<Ending, Finding> {
    fn code(&self) -> u64 {
        match self {
            Ok(Ending::Holds) => 0,
            Ok(Ending::FailsAt(node)) => coded(FAILS, *node),
            Err(finding) => coded(finding.number, finding.place),
        }
    }
}

/// The answer of a call that finds something or nothing.
pub fn of_finding(code: u64) -> Result<(), Finding> {
    match code {
        0 => Ok(()),
        _ => Err(Finding { number: (code >> 32) as u32, place: code as u32 }),
    }
}

/// The answer of a run.
pub fn of_run(code: u64) -> Result<Ending, Finding> {
    match of_finding(code) {
        Ok(()) => Ok(Ending::Holds),
        Err(Finding { number: FAILS, place }) => Ok(Ending::FailsAt(place)),
        Err(finding) => Err(finding),
    }
}
