//! The table of vectors, held against the library, and its printed inputs
//! against the program.

use compare::calls::CALLS;
use compare::expected::{in_words, Expected};
use compare::program;
use generate::Case;
use grillsonnet::Finding;
use vectors::{prints, Vector};

/// The call answers what the row says; where the row does not say which
/// dictionary it leaves or which words it writes, the reference does.
fn answers(vector: Vector) {
    let Vector { name, document, state, dictionary, work, output, answer, .. } = vector;
    let linked = CALLS.iter().find(|call| call.name == vector.call);
    let call = linked.unwrap_or_else(|| panic!("{name}: {} is not linked", vector.call));
    let case = Case { family: "vector", document, state, dictionary, work, output, dirt: 77 };
    let reference = (call.expected)(&case).expect("few steps");
    let (theirs, ours) = (in_words(reference.answer), in_words(answer));
    assert_eq!(reference.answer, answer, "{name}: reference {theirs}, wanted {ours}");
    let dictionary = vector.recorded.unwrap_or(reference.dictionary);
    let output = vector.written.unwrap_or(reference.output);
    if let Some(difference) = call.difference(&case, &Expected { answer, dictionary, output }) {
        panic!("{name}: {}", difference.text.replace("reference:", "wanted:"));
    }
}

#[test]
fn table() {
    vectors::table().into_iter().for_each(answers);
}

#[test]
fn examples_of_the_page() {
    vectors::page().into_iter().for_each(answers);
}

#[test]
fn printed_inputs() {
    let Ok(path) = std::env::var("Z_PROGRAM") else { return };
    for (input, printed) in prints::inputs() {
        let found = program::output(&path, &input).expect("the program runs");
        assert_eq!(String::from_utf8_lossy(&found), printed);
    }
}

#[test]
fn printed_findings() {
    for &((number, place), dictionary, printed) in prints::FINDINGS {
        let answer = if number == 0 { Ok(()) } else { Err(Finding { number, place }) };
        assert_eq!(grillsonnet::print(answer, dictionary).as_deref(), Some(printed));
    }
}
