//! The proved library's answers on the examples.

use compare::calls::CALLS;
use compare::printed;
use example_files::answers::{Run, AREA};
use generate::Case;
use reference::WORK_WORDS;

/// Every call that the library has answers as the reference does, and so does
/// the printed finding.
pub fn assert_answers_alike(runs: Vec<Run>) {
    for Run { document, state, expected } in runs {
        let (dictionary, work, output, dirt) = (AREA, WORK_WORDS, AREA, 1);
        let case = Case { family: expected, document, state, dictionary, work, output, dirt };
        for call in CALLS {
            let answer = (call.expected)(&case).expect("few steps");
            let difference = call.difference(&case, &answer).map(|found| found.text);
            assert_eq!(difference, None, "{}: {expected}", call.name);
        }
        assert_eq!(printed::difference(&case), None, "{expected}");
    }
}
