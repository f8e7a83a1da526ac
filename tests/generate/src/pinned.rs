//! Documents that say which values their abbreviations have, so that a wrong
//! value shows in the run's finding. The values are the reference's.

use crate::applied::applied_document;
use crate::documents::typed_document;
use crate::enumerated::enumerated_document;
use crate::number::encode_somehow;
use crate::rng::Rng;
use crate::runnable::arithmetic_document;
use crate::states::fitting_state;
use crate::typed::Aim;
use coding::make::*;
use coding::{encode, Operand, Tree};
use reference::tree::{NodeNumber, ParagraphKind};
use reference::values::Value;
use std::collections::BTreeMap;

/// A document and a state for it.
pub fn pinned_case(rng: &mut Rng) -> (Vec<u32>, Vec<u32>) {
    let mut tree = some_tree(rng);
    for _ in 0..4 {
        let found = reference::check(&encode(&tree), usize::MAX, reference::WORK_WORDS);
        if found.is_ok() || rng.percent(10) {
            break;
        }
        tree = some_tree(rng);
    }
    let words = encode(&tree);
    let state = fitting_state(rng, &words);
    for (paragraph, identifier, value) in kept_values(&words, &state).into_iter().rev() {
        let pinned = constraint(pin(rng, identifier, &value));
        tree.operands.insert(paragraph + 1, Operand::Node(pinned));
    }
    (encode_somehow(rng, &tree), state)
}

fn some_tree(rng: &mut Rng) -> Tree {
    match rng.below(11) {
        0..=3 => typed_document(rng, Aim::Run),
        4 => enumerated_document(rng),
        5 | 6 => applied_document(rng),
        _ => arithmetic_document(rng),
    }
}

/// The abbreviations that the run works out: the paragraph's place, the
/// identifier, the value.
fn kept_values(words: &[u32], state: &[u32]) -> Vec<(usize, u32, Value)> {
    let Ok(document) = reference::read(words) else {
        return Vec::new();
    };
    let outcome = reference::run(words, state, reference::WORK_WORDS, 5_000);
    let values: BTreeMap<NodeNumber, Value> = outcome.list.into_iter().collect();
    let mut kept = Vec::new();
    for (place, paragraph) in document.paragraphs.iter().enumerate() {
        if let ParagraphKind::Abbreviation { identifier, body, .. } = &paragraph.kind {
            if let Some(value) = values.get(&body.node) {
                kept.push((place, *identifier, value.clone()));
            }
        }
    }
    kept
}

/// A predicate that is true of the value, in one case of twelve of another.
fn pin(rng: &mut Rng, identifier: u32, value: &Value) -> Tree {
    let wanted = match rng.percent(8) {
        true => changed(value),
        false => value.clone(),
    };
    let name = || reference(identifier);
    if let (Value::Integer(n), true) = (&wanted, rng.percent(40)) {
        return match rng.percent(50) {
            true => at_most(name(), integer(*n)),
            false => at_most(integer(*n), name()),
        };
    }
    if let Some(literal) = literal(&wanted).filter(|literal| literal.count() <= 22) {
        return equal(name(), literal);
    }
    match &wanted {
        Value::Set(members) if !members.is_empty() => {
            let some = rng.pick(members);
            match literal(some).filter(|literal| literal.count() <= 22) {
                Some(literal) => member(literal, name()),
                None => truth(),
            }
        }
        _ => truth(),
    }
}

fn changed(value: &Value) -> Value {
    match value {
        Value::Integer(n) => Value::Integer(n.wrapping_add(1)),
        Value::Set(members) if !members.is_empty() => Value::Set(members[1..].to_vec()),
        Value::Set(_) => Value::Set(vec![Value::Integer(0)]),
        other => other.clone(),
    }
}

/// An E that is worked out to the integer.
fn integer(n: i32) -> Tree {
    match n {
        0.. => number(n as u32),
        i32::MIN => arithmetic(42, negative(i32::MAX as u32), number(1)),
        _ => negative(n.unsigned_abs()),
    }
}

/// An E that is worked out to the value, where the language has one.
fn literal(value: &Value) -> Option<Tree> {
    let all = |values: &[Value]| values.iter().map(literal).collect::<Option<Vec<Tree>>>();
    match value {
        Value::Integer(n) => Some(integer(*n)),
        Value::Element(..) => None,
        Value::Set(members) if members.len() <= 6 => Some(set(all(members)?)),
        Value::Set(_) => None,
        Value::Tuple(parts) => Some(tuple(all(parts)?)),
    }
}
