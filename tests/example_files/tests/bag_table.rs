//! The files of examples/bag-table are those that are made here, and the
//! reference and the proved library answer on them what README.md says.

mod library;

use example_files::answers::Run;
use example_files::bag_table::documents::bag_table;
use example_files::bag_table::files::{self, EXAMPLE};
use example_files::bag_table::states::{high, missing, right, twice, unused};
use example_files::bag_table::states::{LARGE, MIDDLE};
use example_files::entries::{numbers, words, Entries};
use reference::values::Value;
use reference::Finding;

/// The table's place in a state.
const TABLE: usize = 0;

fn run_of(state: &Entries, expected: &'static str) -> Run {
    Run { document: coding::encode(&bag_table()), state: words(state), expected }
}

fn of_right() -> Run {
    run_of(&right(), "right.expected")
}

fn of_twice() -> Run {
    run_of(&twice(), "twice.expected")
}

fn of_missing() -> Run {
    run_of(&missing(), "missing.expected")
}

fn runs() -> Vec<Run> {
    let high = run_of(&high(), "high.expected");
    let unused = run_of(&unused(), "unused.expected");
    vec![of_right(), high, of_twice(), of_missing(), unused]
}

fn members(value: &Value) -> &[Value] {
    match value {
        Value::Set(members) => members,
        other => panic!("no set: {other:?}"),
    }
}

#[test]
fn files_are_as_made() {
    EXAMPLE.assert_made(files::all());
}

#[test]
fn the_document_is_accepted_and_the_states_fit() {
    EXAMPLE.assert_accepted("bag-table.z", "bag-table.expected");
    runs().iter().for_each(|run| assert!(run.fitted().is_ok(), "{}", run.expected));
}

#[test]
fn the_readme_names_the_paragraphs() {
    EXAMPLE.assert_paragraphs_named(&coding::encode(&bag_table()));
}

#[test]
fn runs_end_as_the_files_and_the_readme_say() {
    runs().iter().for_each(|run| EXAMPLE.assert_ends(run));
}

/// The last value before the stop is the argument.
#[test]
fn a_run_stops_at_the_size_without_its_one_rate() {
    for (run, (size, _)) in [(of_twice(), LARGE), (of_missing(), MIDDLE)] {
        let outcome = run.outcome();
        let (_, last) = outcome.list.last().expect("values");
        assert_eq!(*last, Value::Integer(size));
    }
}

/// Of the two rates the one holds and the other fails.
#[test]
fn both_rates_are_those_of_the_right_and_of_the_high_table() {
    let rows = |state: Entries| members(&state[TABLE].1).to_vec();
    let mut either = [rows(right()), rows(high())].concat();
    either.sort();
    either.dedup();
    assert_eq!(rows(twice()), either);
}

/// A member that is no pair is 42 at the table's entry.
#[test]
fn a_table_with_a_number_does_not_fit() {
    let mut state = right();
    state[TABLE].1 = numbers([LARGE.0]);
    let finding = Run { state: words(&state), ..of_right() }.fitted().err();
    assert_eq!(finding, Some(Finding { number: 42, place: TABLE as u32 + 1 }));
}

#[test]
fn the_library_answers_the_same() {
    library::assert_answers_alike(runs());
}
