//! States: one entry per identifier in Given and Axiom Decl, as written in
//! Document order, and 41.

use crate::finding::{demand, refused, Finding};
use crate::layout;
use crate::reading::read;
use crate::tree::*;
use crate::values::{Value, MOST_WORDS};
use std::collections::BTreeMap;

/// What a state's entry is for.
#[derive(Clone, Copy, PartialEq, Eq, Debug)]
pub enum Role {
    Given(Identifier),
    Declared(Identifier),
}

/// The sizes of the givens and the values of the declared identifiers.
#[derive(Debug, Default)]
pub struct State {
    pub sizes: BTreeMap<Identifier, i32>,
    pub values: BTreeMap<Identifier, Value>,
    pub roles: Vec<Role>,
}

/// Reading's finding, then 41 with its place.
pub fn check_state(words: &[u32], state: &[u32]) -> Result<(), Finding> {
    read_state(&read(words)?, state).map(|_| ())
}

/// The roles of a state's entries, in their order.
pub fn roles(document: &Document) -> Vec<Role> {
    let mut roles = Vec::new();
    for paragraph in &document.paragraphs {
        match &paragraph.kind {
            ParagraphKind::Given(identifiers) => {
                roles.extend(identifiers.iter().map(|&id| Role::Given(id)));
            }
            ParagraphKind::Axiom(text) => {
                for line in &text.lines {
                    if let Line::Decl(decl) = line {
                        roles.extend(decl.identifiers.iter().map(|&id| Role::Declared(id)));
                    }
                }
            }
            _ => {}
        }
    }
    roles
}

/// "A state has the document's layout", and with it the document's limit of
/// words: a longer state is 41 at 0, not at an entry.
const STATE_WORDS: usize = 16_384;

/// 41 at 0 for the length, the count and the pairs, then at the first
/// ill-formed Given entry, then at the first other one.
pub fn read_state(document: &Document, words: &[u32]) -> Result<State, Finding> {
    let mut state = State { roles: roles(document), ..State::default() };
    let parts = match layout::parts(words) {
        Some(parts) if words.len() <= STATE_WORDS && parts.len() == state.roles.len() => parts,
        _ => return refused(41, 0),
    };
    for (i, part) in parts.iter().enumerate() {
        if let Role::Given(given) = state.roles[i] {
            let entry = &words[part.clone()];
            demand(entry.len() == 1 && entry[0] <= 20, 41, i as u32 + 1)?;
            state.sizes.insert(given, entry[0] as i32);
        }
    }
    for (i, part) in parts.iter().enumerate() {
        if let Role::Declared(identifier) = state.roles[i] {
            let Some(value) = whole_value(&words[part.clone()], &state.sizes) else {
                return refused(41, i as u32 + 1);
            };
            state.values.insert(identifier, value);
        }
    }
    Ok(state)
}

/// The value that an entry's words are, at most 64 and all of them.
fn whole_value(words: &[u32], sizes: &BTreeMap<Identifier, i32>) -> Option<Value> {
    if words.len() > MOST_WORDS {
        return None;
    }
    let signed: Vec<i32> = words.iter().map(|&word| word as i32).collect();
    let mut rest = &signed[..];
    let value = value(&mut rest, sizes)?;
    rest.is_empty().then_some(value)
}

/// The next word, taken off the rest.
fn next(rest: &mut &[i32]) -> Option<i32> {
    let (&first, others) = rest.split_first()?;
    *rest = others;
    Some(first)
}

/// The value that stands first in the rest.
fn value(rest: &mut &[i32], sizes: &BTreeMap<Identifier, i32>) -> Option<Value> {
    match next(rest)? {
        1 => next(rest).map(Value::Integer),
        2 => {
            let (g, k) = (next(rest)?, next(rest)?);
            let given = Identifier::try_from(g).ok()?;
            let size = *sizes.get(&given)?;
            (0 <= k && k < size).then_some(Value::Element(given, k))
        }
        3 => {
            let members = values(rest, sizes)?;
            let ascending = members.windows(2).all(|pair| pair[0] < pair[1]);
            ascending.then_some(Value::Set(members))
        }
        4 => {
            let parts = values(rest, sizes)?;
            (2..=6).contains(&parts.len()).then_some(Value::Tuple(parts))
        }
        _ => None,
    }
}

/// A count, then as many values.
fn values(rest: &mut &[i32], sizes: &BTreeMap<Identifier, i32>) -> Option<Vec<Value>> {
    let count = next(rest)?;
    if count < 0 {
        return None;
    }
    let mut all = Vec::new();
    for _ in 0..count {
        all.push(value(rest, sizes)?);
    }
    Some(all)
}
