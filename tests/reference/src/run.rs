//! The run call: reading, 21, 41, then the paragraphs in Document order.

use crate::finding::{demand, Finding};
use crate::reading::read;
use crate::state::{read_state, State};
use crate::tree::*;
use crate::values::Value;
use crate::WORK_WORDS;
use std::collections::BTreeMap;

/// How a run ends.
#[derive(Clone, Copy, PartialEq, Eq, Debug)]
pub enum Ending {
    Holds,
    FailsAt(NodeNumber),
    Refused(Finding),
    /// No finding of document 01: the run took more steps than the caller
    /// allowed, and is not compared.
    OutOfSteps,
}

/// The ending, and node and value of each expression, each time it was worked
/// out, up to where the run ended or stopped.
pub struct Outcome {
    pub ending: Ending,
    pub list: Vec<(NodeNumber, Value)>,
}

/// Why an evaluation stops.
#[derive(Clone, Copy, PartialEq, Eq, Debug)]
pub enum Stop {
    Fails(NodeNumber),
    Trouble(Finding),
    OutOfSteps,
}

/// A stop with a finding's number at a node.
pub fn trouble<T>(number: u32, node: NodeNumber) -> Result<T, Stop> {
    Err(Stop::Trouble(Finding { number, place: node }))
}

/// What a name means in a run.
#[derive(Clone)]
pub enum Bound {
    Value(Value),
    GenericAbbreviation,
}

/// Runs a document on a state with a work area of this length, in at most so
/// many steps (worked-out expressions and assignments).
pub fn run(words: &[u32], state: &[u32], work: usize, steps: u64) -> Outcome {
    run_listing(words, state, work, steps, true)
}

/// The same, keeping the list of values only where it is asked for.
pub fn run_listing(
    words: &[u32],
    state: &[u32],
    work: usize,
    steps: u64,
    listing: bool,
) -> Outcome {
    let refused = |finding| Outcome { ending: Ending::Refused(finding), list: Vec::new() };
    let document = match read(words) {
        Ok(document) => document,
        Err(finding) => return refused(finding),
    };
    if let Err(finding) = demand(work >= WORK_WORDS, 21, 0) {
        return refused(finding);
    }
    match read_state(&document, state) {
        Ok(state) => run_tree(&document, state, steps, listing),
        Err(finding) => refused(finding),
    }
}

/// Runs the paragraphs of a readable document on a well-formed state.
fn run_tree(document: &Document, state: State, steps: u64, listing: bool) -> Outcome {
    let (globals, texts, list) = Default::default();
    let mut run = Run { state, globals, texts, list, listing, steps };
    let ended = document.paragraphs.iter().try_for_each(|paragraph| run.paragraph(paragraph));
    let ending = match ended {
        Ok(()) => Ending::Holds,
        Err(Stop::Fails(node)) => Ending::FailsAt(node),
        Err(Stop::Trouble(finding)) => Ending::Refused(finding),
        Err(Stop::OutOfSteps) => Ending::OutOfSteps,
    };
    Outcome { ending, list: run.list }
}

pub struct Run {
    pub state: State,
    pub globals: BTreeMap<Identifier, Bound>,
    /// The assignments of the Texts around, innermost last.
    pub texts: Vec<Vec<(Identifier, Value)>>,
    pub list: Vec<(NodeNumber, Value)>,
    pub listing: bool,
    pub steps: u64,
}

impl Run {
    fn paragraph(&mut self, paragraph: &Paragraph) -> Result<(), Stop> {
        match &paragraph.kind {
            ParagraphKind::Given(identifiers) => {
                identifiers.iter().for_each(|&given| self.given(given));
                Ok(())
            }
            ParagraphKind::Axiom(text) => self.axiom(paragraph.node, text),
            ParagraphKind::Schema { .. } => Ok(()),
            ParagraphKind::Abbreviation { identifier, parameters, body } => {
                let bound = match parameters.len() {
                    0 => Bound::Value(self.expr(body)?),
                    _ => Bound::GenericAbbreviation,
                };
                self.globals.insert(*identifier, bound);
                Ok(())
            }
            ParagraphKind::Constraint(pred) => {
                let holds = self.pred(pred)?;
                fails_unless(holds, paragraph.node)
            }
        }
    }

    /// Given binds the set of its elements.
    fn given(&mut self, given: Identifier) {
        let elements = (0..self.state.sizes[&given]).map(|k| Value::Element(given, k));
        self.globals.insert(given, Bound::Value(Value::Set(elements.collect())));
    }

    /// Axiom tests each identifier against its Decl, whose E does not see the
    /// Text's own identifiers, then its predicate, which does.
    fn axiom(&mut self, node: NodeNumber, text: &Text) -> Result<(), Stop> {
        let mut bound = Vec::new();
        for line in &text.lines {
            match line {
                Line::Include(include) => return trouble(54, include.node),
                Line::Decl(decl) => {
                    for &identifier in &decl.identifiers {
                        let value = self.state.values[&identifier].clone();
                        let passes = self.test(&value, &decl.set)?;
                        fails_unless(passes, decl.node)?;
                        bound.push((identifier, Bound::Value(value)));
                    }
                }
            }
        }
        self.globals.extend(bound);
        let holds = self.pred(&text.predicate)?;
        fails_unless(holds, node)
    }

    /// Ref's scope: the Texts around, innermost first, then what earlier
    /// paragraphs bind.
    pub fn look_up(&self, identifier: Identifier) -> Option<Bound> {
        let in_texts = self.texts.iter().rev().flatten().find(|(id, _)| *id == identifier);
        match in_texts {
            Some((_, value)) => Some(Bound::Value(value.clone())),
            None => self.globals.get(&identifier).cloned(),
        }
    }

    /// Counts a step of the run.
    pub fn step(&mut self) -> Result<(), Stop> {
        self.steps = self.steps.checked_sub(1).ok_or(Stop::OutOfSteps)?;
        Ok(())
    }
}

fn fails_unless(holds: bool, node: NodeNumber) -> Result<(), Stop> {
    if holds {
        Ok(())
    } else {
        Err(Stop::Fails(node))
    }
}
