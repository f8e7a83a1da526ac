//! The table of vectors, held against the reference.

use reference::{canonical, check, check_state, fit, read, run, Checked, Ending, Finding};
use vectors::{prints, Listed, Vector};

/// More than any run of the table takes.
const STEPS: u64 = 20_000;

/// What a call answers, and the dictionary or the document that it leaves.
type Answered = (u64, Vec<u32>);

fn finding<T>(found: Result<T, Finding>) -> Answered {
    (found.err().map_or(0, Finding::word), vec![])
}

fn with_dictionary(found: Result<Checked, Finding>) -> Answered {
    match found {
        Ok(checked) => (0, checked.dictionary.words()),
        refused => finding(refused),
    }
}

fn answer(vector: &Vector) -> Answered {
    let Vector { document, state, dictionary, work, .. } = vector;
    match vector.call {
        "z_read" => finding(read(document)),
        "z_state" => finding(check_state(document, state)),
        "z_check" => with_dictionary(check(document, *dictionary, *work)),
        "z_fit" => with_dictionary(fit(document, state, *dictionary, *work)),
        "z_run" => match run(document, state, *work, STEPS).ending {
            Ending::Holds => (0, vec![]),
            Ending::FailsAt(node) => (1 << 32 | u64::from(node), vec![]),
            Ending::Refused(refusal) => (refusal.word(), vec![]),
            Ending::OutOfSteps => panic!("{}: too few steps", vector.name),
        },
        "z_canonical" => match canonical(document, vector.output) {
            Ok(written) => (0, written),
            refused => finding(refused),
        },
        other => panic!("{}: no call {other}", vector.name),
    }
}

/// The table, and the examples of docs/FINDINGS.md.
fn all() -> impl Iterator<Item = Vector> {
    vectors::table().into_iter().chain(vectors::page())
}

#[test]
fn answers() {
    for vector in all() {
        let (found, left) = answer(&vector);
        let parts = |word: u64| (word >> 32, word as u32);
        assert_eq!(parts(found), parts(vector.answer), "{}", vector.name);
        if let Some(words) = vector.recorded.as_ref().or(vector.written.as_ref()) {
            assert_eq!(&left, words, "{}: words", vector.name);
        }
    }
}

#[test]
fn lists() {
    for vector in all() {
        let Some(listed) = &vector.listed else { continue };
        let Vector { document, state, work, name, .. } = &vector;
        let list = run(document, state, *work, STEPS).list;
        let kind = |node: u32| document[document[2 * node as usize - 1] as usize];
        match listed {
            Listed::Last(node, words) => {
                let last = list.last().map_or((0, vec![]), |(node, v)| (*node, v.words()));
                assert_eq!(last, (*node, words.clone()), "{name}: last value");
            }
            Listed::Kinds(kinds) => {
                let found: Vec<u32> = list.iter().map(|(node, _)| kind(*node)).collect();
                assert_eq!(&found, kinds, "{name}: kinds of the list");
            }
            Listed::OfKind(wanted, values) => {
                let those = list.iter().filter(|(node, _)| kind(*node) == *wanted);
                let found: Vec<Vec<i32>> = those.map(|(_, value)| value.words()).collect();
                assert_eq!(&found, values, "{name}: values of kind {wanted}");
            }
        }
    }
}

#[test]
fn printed_inputs() {
    for (input, printed) in prints::inputs() {
        assert_eq!(reference::print(&input), printed);
    }
}
