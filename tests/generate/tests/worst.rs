//! The worst documents are what they are called, and none of them makes the
//! reference slow.

use std::time::{Duration, Instant};

#[test]
fn worst_documents_end_soon() {
    for (name, case) in generate::worst::cases() {
        let start = Instant::now();
        let found = reference::check(&case.document, case.dictionary, case.work);
        let number = found.err().map(|finding| (finding.number, finding.place));
        println!("{name}: {number:?}, {} nodes, {:?}", case.document[0], start.elapsed());
        assert!(start.elapsed() < Duration::from_secs(2), "{name} is slow");
        assert!(number.is_none(), "{name} is refused: {number:?}");
    }
}

#[test]
fn entries_are_as_many_as_said() {
    let cases = generate::worst::cases();
    for (name, entries) in [
        ("2,048 names, 32 schemas", 2_080),
        ("2,048 names in 32 classes", 2_080),
        ("1,024 names, 342 Thetas", 1_040),
        ("1,024 names in 16 classes, Thetas", 1_040),
        ("3,315 entries", 3_315),
        ("3,268 entries of 98 words", 3_268),
        ("255 schemas, the first in each", 255),
    ] {
        let (_, case) = cases.iter().find(|(each, _)| *each == name).expect("a worst document");
        let checked = reference::check(&case.document, case.dictionary, case.work);
        assert_eq!(checked.expect("accepted").dictionary.entries.len(), entries, "{name}");
    }
}

#[test]
fn an_area_that_is_just_enough_has_no_word_more() {
    let tight = |(name, _): &(&str, _)| name.ends_with("just enough");
    let (_, case) = generate::worst::cases().into_iter().find(tight).expect("a worst document");
    let number = |area| reference::check(&case.document, area, case.work).err().map(|f| f.number);
    assert_eq!((number(case.dictionary), number(case.dictionary - 1)), (None, Some(22)));
}

#[test]
fn the_deepest_runs_hold_in_the_steps_of_a_comparison() {
    for (name, tree) in generate::worst_runs::trees() {
        let run = reference::run(&coding::encode(&tree), &[0], reference::WORK_WORDS, 20_000);
        assert_eq!(run.ending, reference::Ending::Holds, "{name}");
    }
}

#[test]
fn refused_documents_end_soon() {
    for (name, case) in generate::worst::refused_cases() {
        let start = Instant::now();
        let found = reference::read(&case.document).err().map(|finding| finding.number);
        assert_eq!(found, Some(17), "{name}");
        assert!(start.elapsed() < Duration::from_secs(1), "{name} is slow");
    }
}

#[test]
fn the_same_seed_gives_the_same_case() {
    for index in 0..200 {
        assert_eq!(generate::case(7, index), generate::case(7, index));
    }
    assert!((0..20).any(|index| generate::case(7, index) != generate::case(8, index)));
}
