//! The calls that are linked, as build.rs found them in the archive.

use crate::areas::{Area, Guarded};
use crate::expected::{self, Expected};
use generate::Case;
use grillsonnet::Answer;

/// What a call may be given.
pub struct Slices<'a> {
    pub document: &'a [u32],
    pub state: &'a [u32],
    pub dictionary: &'a mut [u32],
    pub work: &'a mut [u32],
    pub output: &'a mut [u32],
}

/// One call of the library.
pub struct Call {
    pub name: &'static str,
    pub function: fn(&mut Slices) -> u64,
    /// The reference's answer, or nothing where the run takes too long.
    pub expected: fn(&Case) -> Option<Expected>,
    /// The reference doing the same work on the same areas, for timing.
    pub reference: fn(&mut Slices) -> u64,
    pub dictionary: bool,
    pub work: bool,
    pub output: bool,
    /// The finding numbers that a comparison must reach.
    pub numbers: &'static [u32],
}

/// How the library and the reference differ.
pub struct Difference {
    /// The finding numbers of both where the answers differ; nothing where
    /// something written does.
    pub numbers: Option<(u32, u32)>,
    pub text: String,
}

impl Difference {
    fn answers(library: u64, reference: u64) -> Difference {
        let (theirs, ours) = (expected::in_words(library), expected::in_words(reference));
        Difference {
            numbers: Some((expected::number(library), expected::number(reference))),
            text: format!("library: {theirs}; reference: {ours}"),
        }
    }
}

include!(concat!(env!("OUT_DIR"), "/linked.rs"));

impl Call {
    /// Compares the library's answer with the expected one: the finding, the
    /// words of each area after the call, and that nothing else was written.
    pub fn difference(&self, case: &Case, expected: &Expected) -> Option<Difference> {
        let document = Guarded::new(&case.document, case.dirt);
        let state = Guarded::new(&case.state, case.dirt.rotate_left(7));
        // An area that the call does not take has no words.
        let area = |taken: bool, words: usize, turn: u32| {
            Area::new(if taken { words } else { 0 }, case.dirt.rotate_left(turn))
        };
        let mut dictionary = area(self.dictionary, case.dictionary, 13);
        let mut work = area(self.work, case.work, 19);
        let mut output = area(self.output, case.output, 25);
        let answer = (self.function)(&mut Slices {
            document: document.words(),
            state: state.words(),
            dictionary: dictionary.words(),
            work: work.words(),
            output: output.words(),
        });
        if answer != expected.answer {
            return Some(Difference::answers(answer, expected.answer));
        }
        if !document.is_intact() || !state.is_intact() {
            let text = "the document or the state was written to".to_string();
            return Some(Difference { numbers: None, text });
        }
        let found = [
            ("dictionary", dictionary.difference(&expected.dictionary)),
            ("work", work.difference(&[])),
            ("output", output.difference(&expected.output)),
        ];
        found.into_iter().find_map(|(name, difference)| {
            let text = format!("{name} area: {}", difference?);
            Some(Difference { numbers: None, text })
        })
    }
}
