//! Documents and states by seed. The same seed and index give the same case on
//! every machine.

pub mod applied;
pub mod brought;
pub mod documents;
pub mod enumerated;
pub mod inject;
pub mod inside;
pub mod limits;
pub mod number;
pub mod numberings;
pub mod orders;
pub mod pinned;
pub mod raw;
pub mod rng;
pub mod run_orders;
pub mod runnable;
pub mod schemas;
pub mod series;
pub mod shape;
pub mod special;
pub mod states;
pub mod typed;
pub mod types;
pub mod worst;
pub mod worst_names;
pub mod worst_runs;

use coding::Tree;
use rng::Rng;
use typed::Aim;

/// What the calls are given: a document, a state, the areas' lengths.
#[derive(Clone, PartialEq, Eq, Debug)]
pub struct Case {
    /// Which maker the document is from.
    pub family: &'static str,
    pub document: Vec<u32>,
    pub state: Vec<u32>,
    pub dictionary: usize,
    pub work: usize,
    pub output: usize,
    /// Fills the areas before a call.
    pub dirt: u32,
}

/// The case of this seed with this number.
pub fn case(seed: u64, index: u64) -> Case {
    let mut rng = Rng::new(seed ^ index.wrapping_mul(0xD134_2543_DE82_EF95));
    rng.next();
    let (family, document, state) = match rng.percent(9) {
        true => {
            let (document, state) = pinned::pinned_case(&mut rng);
            ("pinned values", document, state)
        }
        false => {
            let (family, document) = some_document(&mut rng);
            let state = states::state_for(&mut rng, &document);
            (family, document, state)
        }
    };
    let (dictionary, work) = areas(&mut rng, &document);
    let output = output_area(&mut rng, document.len());
    Case { family, document, state, dictionary, work, output, dirt: rng.word() }
}

fn some_document(rng: &mut Rng) -> (&'static str, Vec<u32>) {
    match rng.below(129) {
        0..=16 => broken(rng),
        17..=23 => ("shapes", shaped(rng)),
        24..=33 => ("limits", limits::at_a_limit(rng)),
        34..=37 => ("one rule", numbered(rng, special::special_document)),
        38..=46 => ("order of findings", numbered(rng, orders::order_document)),
        47..=53 => ("typed", accepted(rng, Aim::Check)),
        54..=69 => ("typed, with errors", with_error(rng, Aim::Check)),
        70..=79 => ("runnable", accepted(rng, Aim::Run)),
        80..=88 => ("order of troubles", numbered(rng, run_orders::trouble_document)),
        89..=93 => ("runnable, with errors", with_error(rng, Aim::Run)),
        94..=99 => ("values at their ends", numbered(rng, runnable::arithmetic_document)),
        100..=104 => ("powers and products", numbered(rng, enumerated::enumerated_document)),
        105..=113 => ("applications", numbered(rng, applied::applied_document)),
        114..=121 => ("types inside themselves", numbered(rng, inside::inside_document)),
        122..=124 => ("numberings", numberings::renumbered(rng)),
        _ => ("names that Axioms bring", numbered(rng, brought::brought_document)),
    }
}

/// Words with little order, and sound documents with something broken.
fn broken(rng: &mut Rng) -> (&'static str, Vec<u32>) {
    match rng.below(17) {
        0..=2 => ("raw words", raw::raw_words(rng)),
        3 => ("any kind", raw::any_kind(rng)),
        4..=6 => ("damaged layout", damaged(rng, raw::damage_layout)),
        7..=13 => ("damaged nodes", damaged(rng, raw::damage_nodes)),
        _ => ("misused nodes", damaged(rng, raw::misuse_nodes)),
    }
}

/// The words of such a document, its nodes numbered in some way.
fn numbered(rng: &mut Rng, make: fn(&mut Rng) -> Tree) -> Vec<u32> {
    let tree = make(rng);
    number::encode_somehow(rng, &tree)
}

/// The words of a sound document after such damage.
fn damaged(rng: &mut Rng, damage: fn(&mut Rng, &[u32]) -> Vec<u32>) -> Vec<u32> {
    let sound = sound_document(rng);
    damage(rng, &sound)
}

fn shaped(rng: &mut Rng) -> Vec<u32> {
    let names = *rng.pick(&[3, 6, 12, 40]);
    let tree = shape::Shape { rng, names }.document();
    number::encode_somehow(rng, &tree)
}

/// A document to be damaged.
fn sound_document(rng: &mut Rng) -> Vec<u32> {
    match rng.below(4) {
        0 => shaped(rng),
        1 => limits::at_a_limit(rng),
        2 => accepted(rng, Aim::Run),
        _ => accepted(rng, Aim::Check),
    }
}

/// A document that the reference accepts, in most cases.
fn accepted(rng: &mut Rng, aim: Aim) -> Vec<u32> {
    let mut words = Vec::new();
    for _ in 0..6 {
        let tree = documents::typed_document(rng, aim);
        words = number::encode_somehow(rng, &tree);
        let is_accepted = reference::check(&words, usize::MAX, reference::WORK_WORDS).is_ok();
        if is_accepted || rng.percent(10) {
            break;
        }
    }
    words
}

fn with_error(rng: &mut Rng, aim: Aim) -> Vec<u32> {
    let mut tree = documents::typed_document(rng, aim);
    for _ in 0..4 {
        let words = coding::encode(&tree);
        if reference::check(&words, usize::MAX, reference::WORK_WORDS).is_ok() {
            break;
        }
        tree = documents::typed_document(rng, aim);
    }
    for _ in 0..[1, 1, 1, 2, 2, 3][rng.below(6)] {
        let sort = *rng.pick(&inject::SORTS);
        inject::inject(rng, &mut tree, sort);
    }
    number::encode_somehow(rng, &tree)
}

/// Lengths of the dictionary area and the work area: mostly as the program has
/// them, else odd, too short, or just enough.
fn areas(rng: &mut Rng, document: &[u32]) -> (usize, usize) {
    let found = reference::check(document, usize::MAX, reference::WORK_WORDS);
    let needed = found.as_ref().map_or(40, |checked| checked.dictionary.length());
    let usual = found.is_err() && rng.percent(80);
    let dictionary = match if usual { 40 } else { rng.below(40) } {
        0..=2 => needed,
        3 | 4 => needed - 1,
        5 | 6 => rng.below(needed),
        7 => rng.below(3),
        8..=10 => needed + 1 + rng.below(30),
        11..=13 => 16_385 + 2 * rng.below(500),
        14..=26 => needed.max(16_384),
        _ => 16_384,
    };
    let work = match rng.below(40) {
        0 => 16_383,
        1 => rng.below(16_384),
        2 | 3 => 16_385 + rng.below(1_001),
        _ => 16_384,
    };
    (dictionary, work)
}

/// Length of the output area for a document of so many words: mostly as the
/// document, one word short or as the other areas, else odd.
fn output_area(rng: &mut Rng, words: usize) -> usize {
    match rng.below(20) {
        0..=4 => words,
        5..=7 => words.saturating_sub(1),
        8 => 0,
        9 => rng.below(words),
        10..=12 => words + 1 + rng.below(30),
        13 => 16_385 + 2 * rng.below(500),
        _ => 16_384,
    }
}
