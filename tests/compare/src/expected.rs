//! The reference's answer to each call, in the library's words. The function
//! has the call's name.

use generate::Case;
use reference::{Ending, Finding};

/// Steps after which the reference leaves a run alone; the library's run of
/// the same case is then not compared.
const STEPS: u64 = 20_000;

/// A call's answer, and the words of the dictionary and of the output after
/// it; the words after them, and the work area, are zero.
#[derive(Default)]
pub struct Expected {
    pub answer: u64,
    pub dictionary: Vec<u32>,
    pub output: Vec<u32>,
}

fn answer<T>(found: Result<T, Finding>) -> u64 {
    found.err().map_or(0, Finding::word)
}

fn finding_only<T>(found: Result<T, Finding>) -> Option<Expected> {
    Some(Expected { answer: answer(found), ..Expected::default() })
}

fn with_dictionary(found: Result<reference::Checked, Finding>) -> Option<Expected> {
    let dictionary = match &found {
        Ok(checked) => checked.dictionary.words(),
        Err(_) => Vec::new(),
    };
    Some(Expected { answer: answer(found), dictionary, ..Expected::default() })
}

pub fn z_read(case: &Case) -> Option<Expected> {
    finding_only(reference::read(&case.document))
}

pub fn z_state(case: &Case) -> Option<Expected> {
    finding_only(reference::check_state(&case.document, &case.state))
}

pub fn z_check(case: &Case) -> Option<Expected> {
    with_dictionary(reference::check(&case.document, case.dictionary, case.work))
}

pub fn z_fit(case: &Case) -> Option<Expected> {
    with_dictionary(reference::fit(&case.document, &case.state, case.dictionary, case.work))
}

/// The run: 0 where it holds, 1 * 2^32 + node where it fails at a node, else
/// the finding.
pub fn z_run(case: &Case) -> Option<Expected> {
    let answer = match reference::run(&case.document, &case.state, case.work, STEPS).ending {
        Ending::Holds => 0,
        Ending::FailsAt(node) => 1 << 32 | u64::from(node),
        Ending::Refused(finding) => finding.word(),
        Ending::OutOfSteps => return None,
    };
    Some(Expected { answer, ..Expected::default() })
}

pub fn z_canonical(case: &Case) -> Option<Expected> {
    Some(match reference::canonical(&case.document, case.output) {
        Ok(output) => Expected { output, ..Expected::default() },
        Err(finding) => Expected { answer: finding.word(), ..Expected::default() },
    })
}

/// The finding number of an answer.
pub fn number(answer: u64) -> u32 {
    (answer >> 32) as u32
}

/// An answer as a reader wants it.
pub fn in_words(answer: u64) -> String {
    let place = answer as u32;
    match number(answer) {
        0 if place == 0 => "0 (accepted, holds or written)".to_string(),
        1 => format!("fails at {place}"),
        number => format!("{number} at {place}"),
    }
}
