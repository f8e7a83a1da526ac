//! The files of examples/alarms are those that are made here, and the
//! reference and the proved library answer on them what README.md says.

mod library;

use example_files::alarms::documents::{alarms, numbers};
use example_files::alarms::files::{self, EXAMPLE, FEW, MANY, NO_NAMES};
use example_files::alarms::states::{closed, four, gap, words};
use example_files::answers::Run;
use example_files::entries::Entries;
use reference::tree::NodeNumber;
use reference::values::{Value, MOST_WORDS};
use reference::Outcome;

/// The ℙ alarm of the quantifier.
const QUANTIFIED: NodeNumber = 11;

fn of_alarms(state: &Entries, expected: &'static str) -> Run {
    Run { document: coding::encode(&alarms()), state: words(state), expected }
}

fn of_numbers(n: u32, expected: &'static str) -> Run {
    Run { document: coding::encode(&numbers(n)), state: NO_NAMES.to_vec(), expected }
}

fn runs() -> Vec<Run> {
    vec![
        of_alarms(&closed(), "closed.expected"),
        of_alarms(&gap(), "gap.expected"),
        of_alarms(&four(), "four.expected"),
        of_numbers(FEW, "of-three.expected"),
        of_numbers(MANY, "of-four.expected"),
    ]
}

#[test]
fn files_are_as_made() {
    EXAMPLE.assert_made(files::all());
}

#[test]
fn the_document_is_accepted_and_the_states_fit() {
    EXAMPLE.assert_accepted("alarms.z", "alarms.expected");
    runs().iter().for_each(|run| assert!(run.fitted().is_ok(), "{}", run.expected));
}

#[test]
fn the_readme_names_the_paragraphs() {
    EXAMPLE.assert_paragraphs_named(&coding::encode(&alarms()));
}

#[test]
fn runs_end_as_the_files_and_the_readme_say() {
    runs().iter().for_each(|run| EXAMPLE.assert_ends(run));
}

/// The lists that the axiom runs through, and that of three numbers.
#[test]
fn powers_have_as_many_words_as_the_readme_says() {
    let longest = |outcome: Outcome| {
        outcome.list.iter().map(|(_, value)| value.length()).max().expect("values")
    };
    assert_eq!(longest(of_numbers(FEW, "of-three.expected").outcome()), 42);
    let outcome = of_alarms(&closed(), "closed.expected").outcome();
    let power = |(node, _): &&(NodeNumber, Value)| *node == QUANTIFIED;
    let (_, power) = outcome.list.iter().find(power).expect("the power");
    assert!(matches!(power, Value::Set(members) if members.len() == 8), "{power:?}");
    assert_eq!(power.length(), 54);
    assert!(power.length() <= MOST_WORDS);
}

#[test]
fn the_library_answers_the_same() {
    library::assert_answers_alike(runs());
}
