//! The comparison's own parts: areas, shrinking, the printed tree.

use coding::make::*;
use compare::areas::{Area, Guarded};
use compare::{program, show, shrink};
use generate::Case;

fn case_of(paragraphs: Vec<coding::Tree>) -> Case {
    let document = coding::encode(&document(paragraphs));
    let state = vec![0];
    Case { family: "test", document, state, dictionary: 17, work: 16_385, output: 3, dirt: 7 }
}

#[test]
fn an_area_shows_what_is_left_over() {
    let mut area = Area::new(5, 3);
    assert!(area.words().iter().all(|&word| word != 0), "dirty before the call");
    assert!(area.difference(&[1, 2]).is_some());
    area.words().copy_from_slice(&[1, 2, 0, 0, 0]);
    assert!(area.difference(&[1, 2]).is_none());
    assert!(area.difference(&[]).is_some());
    area.words()[4] = 9;
    assert!(area.difference(&[1, 2]).is_some());
}

#[test]
fn a_word_outside_an_area_shows() {
    let mut area = Area::new(0, 3);
    assert!(area.difference(&[]).is_none());
    let end = area.words().as_mut_ptr();
    // The guard word after the area, which belongs to the same allocation.
    unsafe { *end = 0 };
    assert!(area.difference(&[]).is_some());
    assert!(Guarded::new(&[1, 2], 5).is_intact());
}

#[test]
fn shrinking_keeps_what_matters() {
    let seven = constraint(equal(set(vec![number(7), number(3)]), set(vec![number(1)])));
    let others = (0..20).map(|_| constraint(not(truth()))).collect::<Vec<_>>();
    let case = case_of([others.clone(), vec![given(&[400, 404]), seven], others].concat());
    let has_seven = |case: &Case| case.document.windows(2).any(|pair| pair == [31, 7]);
    let readable = |case: &Case| reference::read(&case.document).is_ok();
    let small = shrink::shrink(&case, &|case| has_seven(case) && readable(case));
    assert!(has_seven(&small) && readable(&small));
    assert!(small.document[0] <= 5, "{}", show::document(&small.document));
    assert_eq!((small.dictionary, small.work, small.output), (16_384, 16_384, 16_384));
}

#[test]
fn shrinking_keeps_an_output_area_one_word_short() {
    let mut case = case_of((0..20).map(|_| constraint(not(truth()))).collect());
    case.output = case.document.len() - 1;
    let small = shrink::shrink(&case, &|case| case.output + 1 == case.document.len());
    assert_eq!((small.document.len(), small.output), (4, 3));
}

#[test]
fn shrinking_broken_words() {
    let mut case = case_of(vec![given(&[4])]);
    case.document = (0..500).collect();
    let small = shrink::shrink(&case, &|case| case.document.contains(&77));
    assert_eq!(small.document, [77]);
}

#[test]
fn a_document_is_shown_as_a_tree() {
    let case = case_of(vec![constraint(equal(reference(9), number(3)))]);
    let shown = show::document(&case.document);
    assert!(shown.contains("   5  Document #4\n   4    Constraint #3\n   3      = #1 #2\n"));
    assert!(shown.contains("   1        Ref n2'\n   2        Number 3\n"));
    assert!(show::document(&[5, 1]).contains("no sound layout"));
}

#[test]
fn inputs_of_odd_lengths() {
    let case = case_of(vec![given(&[4])]);
    assert_eq!(program::input(&case, 5).len(), 36);
    assert_eq!(program::input(&case, 0).len(), 37);
    assert!(program::input(&case, 2).len() > 65_536);
}
