//! The reference's answers on an example, held against what its files and its
//! README.md say.

use crate::written::Example;
use reference::{fit, run, Checked, Ending, Finding, Outcome, WORK_WORDS};

/// Words of the dictionary area and of the output area.
pub const AREA: usize = 16_384;
/// More steps than the runs of the examples take.
const STEPS: u64 = 20_000;

/// A document, a state, and the file that says how the run ends.
pub struct Run {
    pub document: Vec<u32>,
    pub state: Vec<u32>,
    pub expected: &'static str,
}

impl Run {
    pub fn outcome(&self) -> Outcome {
        run(&self.document, &self.state, WORK_WORDS, STEPS)
    }

    pub fn fitted(&self) -> Result<Checked, Finding> {
        fit(&self.document, &self.state, AREA, WORK_WORDS)
    }
}

impl Example {
    /// The document is accepted, with the dictionary that the other file says.
    pub fn assert_accepted(self, document: &str, expected: &str) {
        assert_eq!(reference::print(&self.file(document)), self.text(expected));
    }

    /// README.md names the node of each paragraph.
    pub fn assert_paragraphs_named(self, document: &[u32]) {
        let readme = self.text("README.md");
        for paragraph in reference::read(document).expect("readable").paragraphs {
            let node = format!("node {})", paragraph.node);
            assert!(readme.contains(&node), "not in README.md: {node}");
        }
    }

    /// The run ends as its file and the table of README.md say.
    pub fn assert_ends(self, run: &Run) {
        let (ending, expected) = (in_words(run.outcome().ending), run.expected);
        assert_eq!(format!("{ending}\n"), self.text(expected), "{expected}");
        let answer = format!("run: {ending} (`{expected}`)");
        assert!(self.text("README.md").contains(&answer), "not in README.md: {answer}");
    }
}

fn in_words(ending: Ending) -> String {
    match ending {
        Ending::Holds => "holds".to_string(),
        Ending::FailsAt(node) => format!("fails at {node}"),
        Ending::Refused(finding) => format!("refused {} at {}", finding.number, finding.place),
        Ending::OutOfSteps => panic!("more steps than were allowed"),
    }
}
