//! The reference doing what each call does, areas included, for the benchmark.
//! The function has the call's name.

use crate::calls::Slices;
use reference::dictionary::Dictionary;
use reference::run::run_listing;
use reference::{Ending, Finding};

fn answer<T>(found: Result<T, Finding>) -> u64 {
    found.err().map_or(0, Finding::word)
}

pub fn z_read(s: &mut Slices) -> u64 {
    answer(reference::read(s.document))
}

pub fn z_state(s: &mut Slices) -> u64 {
    answer(reference::check_state(s.document, s.state))
}

pub fn z_check(s: &mut Slices) -> u64 {
    answer(reference::check_into(s.document, s.dictionary, s.work))
}

pub fn z_fit(s: &mut Slices) -> u64 {
    answer(reference::fit::fit_into(s.document, s.state, s.dictionary, s.work))
}

pub fn z_run(s: &mut Slices) -> u64 {
    s.work.fill(0);
    match run_listing(s.document, s.state, s.work.len(), u64::MAX, false).ending {
        Ending::Holds => 0,
        Ending::FailsAt(node) => 1 << 32 | u64::from(node),
        Ending::Refused(finding) => finding.word(),
        Ending::OutOfSteps => u64::MAX,
    }
}

pub fn z_canonical(s: &mut Slices) -> u64 {
    answer(reference::canonical_into(s.document, s.output))
}

/// The lines of a check's answer in a buffer of so many bytes, with zeros after
/// them.
pub fn z_print(checked: &Result<Dictionary, Finding>, size: usize) -> Vec<u8> {
    let text = reference::print::lines(checked);
    let mut buffer = vec![0; size];
    let (head, tail) = buffer.split_at_mut(text.len());
    head.copy_from_slice(text.as_bytes());
    tail.fill(0);
    buffer
}
