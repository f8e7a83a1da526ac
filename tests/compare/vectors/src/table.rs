//! A row of the table, and short ways to write one.

use crate::write::{doc, nth, A};
use coding::make::abbreviation;
use coding::Tree;

/// Words of an area where a row does not say another number.
pub const AREA: usize = 16_384;

/// What a run's list of values must have; lists are the reference's alone.
pub enum Listed {
    /// The last node of the list (none: 0) and its value's words.
    Last(u32, Vec<i32>),
    /// The kinds of its nodes, in order.
    Kinds(Vec<u32>),
    /// The values of its nodes of this kind, in order.
    OfKind(u32, Vec<Vec<i32>>),
}

pub struct Vector {
    /// The group, and which row of it.
    pub name: String,
    /// The symbol of the call.
    pub call: &'static str,
    pub document: Vec<u32>,
    pub state: Vec<u32>,
    /// Words of the dictionary area.
    pub dictionary: usize,
    /// Words of the work area.
    pub work: usize,
    /// Words of the output area.
    pub output: usize,
    /// Number * 2^32 + place; 0 where accepted, where the run holds or
    /// where the document is written; 2^32 + node where the run fails.
    pub answer: u64,
    /// The dictionary's words, where the row says them.
    pub recorded: Option<Vec<u32>>,
    /// The words that are written, where the row says them.
    pub written: Option<Vec<u32>>,
    pub listed: Option<Listed>,
}

#[derive(Default)]
pub struct Table {
    pub vectors: Vec<Vector>,
    group: &'static str,
    row: usize,
}

/// A finding as the calls give it; (0, 0) where there is none.
pub fn code((number, place): (u32, u32)) -> u64 {
    u64::from(number) << 32 | u64::from(place)
}

impl Table {
    /// The rows that follow are of this group.
    pub fn group(&mut self, name: &'static str) {
        self.group = name;
        self.row = 0;
    }

    fn row(
        &mut self,
        call: &'static str,
        (document, state): (&[u32], &[u32]),
        finding: (u32, u32),
    ) -> &mut Vector {
        self.row += 1;
        self.vectors.push(Vector {
            name: format!("{}, {}", self.group, self.row),
            call,
            document: document.to_vec(),
            state: state.to_vec(),
            dictionary: AREA,
            work: AREA,
            output: AREA,
            answer: code(finding),
            recorded: None,
            written: None,
            listed: None,
        });
        self.vectors.last_mut().expect("a row was pushed")
    }

    pub fn reads(&mut self, document: &[u32], finding: (u32, u32)) {
        self.row("z_read", (document, &[0]), finding);
    }

    pub fn stated(&mut self, document: &[u32], state: &[u32], finding: (u32, u32)) {
        self.row("z_state", (document, state), finding);
    }

    pub fn checks(&mut self, document: &[u32], finding: (u32, u32)) {
        self.row("z_check", (document, &[0]), finding);
    }

    /// A check with areas of so many words.
    pub fn checks_in(
        &mut self,
        document: &[u32],
        (dictionary, work): (usize, usize),
        finding: (u32, u32),
    ) {
        let row = self.row("z_check", (document, &[0]), finding);
        (row.dictionary, row.work) = (dictionary, work);
    }

    pub fn accepts(&mut self, paragraphs: Vec<Tree>) {
        self.checks(&doc(paragraphs), (0, 0));
    }

    /// The check refuses with this number at the nth node of this kind.
    pub fn refuses(&mut self, paragraphs: Vec<Tree>, number: u32, kind: u32, n: usize) {
        let words = doc(paragraphs);
        self.checks(&words, (number, nth(&words, kind, n)));
    }

    /// The check accepts, and leaves this dictionary.
    pub fn records(&mut self, document: &[u32], dictionary: &[u32]) {
        self.row("z_check", (document, &[0]), (0, 0)).recorded = Some(dictionary.to_vec());
    }

    pub fn fits(&mut self, document: &[u32], state: &[u32], finding: (u32, u32)) {
        self.row("z_fit", (document, state), finding);
    }

    /// The fit call accepts, and leaves this dictionary.
    pub fn fits_with(&mut self, document: &[u32], state: &[u32], dictionary: &[u32]) {
        self.row("z_fit", (document, state), (0, 0)).recorded = Some(dictionary.to_vec());
    }

    /// A run; (1, node) where it fails at a node.
    pub fn runs(&mut self, document: &[u32], state: &[u32], finding: (u32, u32)) -> &mut Vector {
        self.row("z_run", (document, state), finding)
    }

    /// A run without identifiers in its state holds.
    pub fn holds(&mut self, paragraphs: Vec<Tree>) {
        self.runs(&doc(paragraphs), &[0], (0, 0));
    }

    /// Such a run fails at a node.
    pub fn fails(&mut self, paragraphs: Vec<Tree>, node: u32) {
        self.runs(&doc(paragraphs), &[0], (1, node));
    }

    /// Such a run stops with this number at the nth node of this kind.
    pub fn stops(&mut self, paragraphs: Vec<Tree>, number: u32, kind: u32, n: usize) {
        let words = doc(paragraphs);
        let place = nth(&words, kind, n);
        self.runs(&words, &[0], (number, place));
    }

    /// The run of one Abbreviation of this expression lists its value last.
    pub fn value(&mut self, expression: Tree, words: &[i32]) {
        let document = doc(vec![abbreviation(A, &[], expression)]);
        let body = document[0] - 2;
        self.runs(&document, &[0], (0, 0)).listed = Some(Listed::Last(body, words.to_vec()));
    }

    /// The document in its one coding is these words, which fit exactly.
    pub fn writes(&mut self, document: &[u32], written: &[u32]) {
        let row = self.row("z_canonical", (document, &[0]), (0, 0));
        row.output = written.len();
        row.written = Some(written.to_vec());
    }

    /// It is not written into an output area of so many words.
    pub fn writes_not(&mut self, document: &[u32], output: usize, finding: (u32, u32)) {
        self.row("z_canonical", (document, &[0]), finding).output = output;
    }
}
