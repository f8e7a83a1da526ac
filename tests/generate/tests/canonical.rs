//! Document 02, ask 3, tested on the reference alone: one coding for each tree,
//! and the check, the fit and the run of it as of the original.

use generate::number::{encode_otherwise, tree_of};
use generate::rng::Rng;
use generate::Case;
use reference::flat::Flat;
use reference::reading::read_flat;
use reference::{canonical, check, fit, run, Checked, Ending, Finding, WORK_WORDS};
use std::collections::HashMap;
use std::sync::OnceLock;

const CASES: u64 = 4_000;
/// Steps after which a run is left alone, in both codings at the same place.
const STEPS: u64 = 20_000;

fn cases() -> &'static [Case] {
    static MADE: OnceLock<Vec<Case>> = OnceLock::new();
    MADE.get_or_init(|| (0..CASES).map(|index| generate::case(3, index)).collect())
}

/// The cases whose document is readable, each with its one coding.
fn readable() -> impl Iterator<Item = (&'static Case, Vec<u32>)> {
    let coded = |case: &'static Case| Some((case, canonical(&case.document, usize::MAX).ok()?));
    cases().iter().filter_map(coded)
}

#[test]
fn refused_where_reading_refuses() {
    for case in cases() {
        let read = read_flat(&case.document);
        let written = canonical(&case.document, case.output);
        match (read, written) {
            (Err(reading), written) => assert_eq!(written, Err(reading)),
            (Ok(_), Ok(words)) => assert!(words.len() <= case.output),
            (Ok(_), Err(finding)) => {
                assert_eq!(finding, Finding { number: 27, place: 0 });
                assert!(case.document.len() > case.output);
            }
        }
    }
}

#[test]
fn the_result_has_the_tree_and_the_length() {
    for (case, written) in readable() {
        assert_eq!(written.len(), case.document.len());
        assert_eq!(tree_of(&written), tree_of(&case.document));
        assert_eq!(canonical(&written, written.len()).as_ref(), Ok(&written));
    }
}

#[test]
fn each_numbering_gives_the_same_words() {
    let mut rng = Rng::new(5);
    let mut others = 0;
    for (case, written) in readable() {
        let tree = tree_of(&case.document).expect("readable");
        assert_eq!(coding::encode(&tree), written);
        for _ in 0..3 {
            let other = encode_otherwise(&mut rng, &tree);
            others += usize::from(other != written);
            // 16 and 17 count in node order, but whether they come does not
            // depend on it: the other numbering is readable too.
            assert_eq!(canonical(&other, usize::MAX).as_ref(), Ok(&written));
        }
    }
    assert!(others > 5_000, "only {others} in another numbering");
}

#[test]
fn other_trees_give_other_words() {
    let mut trees = HashMap::new();
    for (case, written) in readable() {
        let tree = tree_of(&case.document);
        assert_eq!(trees.entry(written).or_insert(tree.clone()), &tree);
    }
    assert!(trees.len() > 1_000, "only {} trees", trees.len());
}

/// The new number of each node; 0 stays.
fn new_numbers(old: &Flat, new: &Flat) -> Vec<u32> {
    fn walk(old: &Flat, k: usize, new: &Flat, n: usize, numbers: &mut [u32]) {
        numbers[k] = n as u32;
        for (&child, &other) in old.node(k).children.iter().zip(&new.node(n).children) {
            walk(old, child, new, other, numbers);
        }
    }
    let mut numbers = vec![0; old.count() + 1];
    walk(old, old.count(), new, new.count(), &mut numbers);
    numbers
}

/// A finding with the new number of its node; the place of 41 and 42 is an
/// entry of the state.
fn moved(finding: Finding, numbers: &[u32]) -> Finding {
    match finding.number {
        41 | 42 => finding,
        _ => Finding { place: numbers[finding.place as usize], ..finding },
    }
}

#[test]
fn check_and_fit_find_the_same() {
    let mut refused = 0;
    for (case, written) in readable() {
        let numbers = numbers_of(case, &written);
        let same = |old: Result<Checked, Finding>, new: Result<Checked, Finding>| {
            let words = |checked: Checked| checked.dictionary.words();
            let old = old.map(words).map_err(|finding| moved(finding, &numbers));
            assert_eq!(new.map(words), old);
            usize::from(old.is_err())
        };
        let areas = (case.dictionary, case.work);
        let checked = |document: &[u32]| check(document, areas.0, areas.1);
        let fitted = |document: &[u32]| fit(document, &case.state, areas.0, areas.1);
        refused += same(checked(&case.document), checked(&written));
        refused += same(fitted(&case.document), fitted(&written));
    }
    assert!(refused > 1_000, "only {refused} refused");
}

#[test]
fn the_run_ends_and_lists_the_same() {
    let mut values = 0;
    for (case, written) in readable() {
        let numbers = numbers_of(case, &written);
        let old = run(&case.document, &case.state, WORK_WORDS, STEPS);
        let new = run(&written, &case.state, WORK_WORDS, STEPS);
        let ending = match old.ending {
            Ending::FailsAt(node) => Ending::FailsAt(numbers[node as usize]),
            Ending::Refused(finding) => Ending::Refused(moved(finding, &numbers)),
            other => other,
        };
        assert_eq!(new.ending, ending);
        values += old.list.len();
        let number = |node: u32| numbers[node as usize];
        let list: Vec<_> = old.list.into_iter().map(|(node, v)| (number(node), v)).collect();
        assert!(new.list == list, "the lists differ");
    }
    assert!(values > 10_000, "only {values} values");
}

fn numbers_of(case: &Case, written: &[u32]) -> Vec<u32> {
    let flat = |words: &[u32]| read_flat(words).expect("readable");
    new_numbers(&flat(&case.document), &flat(written))
}
