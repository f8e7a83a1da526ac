//! The stack that the calls take on the worst documents: what a call writes of
//! it is less than the header says, and a thread with so much, and a guard page
//! below it, comes through with the reference's answer and areas. A call that
//! meets the guard page ends the test's process. The thread alone would not do:
//! glibc may give it the longer stack of a thread that has ended.

use compare::calls::Call;
use compare::measure::Timed;
use compare::printed::Checked;
use compare::stack::{on_stack, prepared, taken};
use generate::{worst, Case};

/// The bound of each call in KiB, as the header says it. Where the library
/// comes to take less, a bound is lowered here and in the header;
/// target/cargo/release/stacks prints what each call takes on each document.
const BOUNDS: [(&str, usize); 7] = [
    ("z_read", 128),
    ("z_state", 128),
    ("z_check", 384),
    ("z_fit", 384),
    ("z_run", 256),
    ("z_canonical", 128),
    ("z_print", 32),
];

/// Bytes of its stack that a thread takes before the call.
const START: usize = 8 * 1024;

/// How the library differs from the reference on a stack of so many bytes.
fn difference_on(bytes: usize, call: &Timed, case: &Case) -> Option<String> {
    match call {
        Timed::Call(call) => call_difference(bytes, call, case),
        Timed::Print => {
            let checked = Checked::new(&case.document, case.dictionary);
            let (answer, area) = (checked.answer(), &checked.area);
            let found = on_stack(bytes, move || grillsonnet::print(answer, area));
            let expected = reference::print::lines(&checked.found);
            (found.as_deref() != Some(&expected)).then_some(expected)
        }
    }
}

/// A run that the reference does not end is only made to return.
fn call_difference(bytes: usize, call: &'static Call, case: &Case) -> Option<String> {
    match (call.expected)(case) {
        Some(expected) => on_stack(bytes, || Some(call.difference(case, &expected)?.text)),
        None => {
            on_stack(bytes, prepared(call, case));
            None
        }
    }
}

#[test]
fn the_headers_bounds_are_enough() {
    let cases: Vec<_> = worst::cases().into_iter().chain(worst::refused_cases()).collect();
    for (call, (_, bound)) in Timed::all().iter().zip(BOUNDS) {
        for (name, case) in &cases {
            let taken = START + taken(call, case);
            assert!(taken <= bound * 1024, "{} of {name}: {taken} bytes", call.name());
            let difference = difference_on(bound * 1024, call, case);
            assert_eq!(difference, None, "{} of {name}", call.name());
        }
    }
}

#[test]
fn each_call_has_a_bound() {
    let calls: Vec<&str> = Timed::all().iter().map(Timed::name).collect();
    assert_eq!(calls, BOUNDS.map(|(name, _)| name));
}

#[test]
fn the_header_says_the_bounds() {
    let header = include_str!("../../../bindings/grillsonnet.h");
    let words: Vec<&str> = header.split_whitespace().filter(|&word| word != "*").collect();
    let said = BOUNDS.map(|(name, bound)| format!("{name} {bound}")).join(", ");
    assert!(words.join(" ").contains(&said), "not in the header: {said}");
}
