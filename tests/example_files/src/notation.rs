//! The document's nodes and a state's values in Z notation.

use crate::names::Names;
use coding::{Operand, Tree};
use reference::values::Value;

/// The kinds + and ×.
pub const PLUS: u32 = 41;
pub const TIMES: u32 = 43;

/// A node in Z notation, with what is below it.
pub fn node(tree: &Tree, names: Names) -> String {
    let below: Vec<String> = tree.children().map(|child| node(child, names)).collect();
    let plain = words(tree);
    match (tree.kind, &below[..]) {
        (1, paragraphs) => format!("Document of {} paragraphs", paragraphs.len()),
        (2, []) => format!("Given [{}]", identifiers(&plain, names)),
        (3, [text]) => format!("Axiom {text}"),
        (4, [body]) => format!("Schema {} == [{body}]", names.of_name(plain[0])),
        (5, [body]) => format!("Abbreviation {} == {body}", names.of_identifier(plain[0])),
        (6, [predicate]) => format!("Constraint {predicate}"),
        (10, [predicate, lines @ ..]) => format!("{} | {predicate}", lines.join("; ")),
        (11, [set]) => format!("{} : {set}", identifiers(&plain, names)),
        (20, []) => "true".to_string(),
        (28, [text, body]) => format!("∀ {text} • {body}"),
        (30, []) => names.of_identifier(plain[0]).to_string(),
        (31, []) => plain[0].to_string(),
        (32, []) => "ℤ".to_string(),
        (33, members) => format!("{{{}}}", members.join(", ")),
        (35, factors) => factors.join(" × "),
        (36, [set]) if set.contains(' ') => format!("ℙ ({set})"),
        (36, [set]) => format!("ℙ {set}"),
        (37, [function, argument]) => format!("{function}({argument})"),
        (kind, [left, right]) => format!("{left} {} {right}", infix(kind)),
        (kind, _) => panic!("kind {kind} has no notation here"),
    }
}

/// The sign between two operands.
fn infix(kind: u32) -> &'static str {
    match kind {
        21 => "=",
        22 => "∈",
        23 => "≤",
        25 => "∧",
        PLUS => "+",
        TIMES => "×",
        _ => panic!("kind {kind} has no sign here"),
    }
}

/// The operands that are no nodes.
fn words(tree: &Tree) -> Vec<u32> {
    let word = |operand: &Operand| match operand {
        Operand::Word(word) => Some(*word),
        Operand::Node(_) => None,
    };
    tree.operands.iter().filter_map(word).collect()
}

fn identifiers(words: &[u32], names: Names) -> String {
    words.iter().map(|&word| names.of_identifier(word)).collect::<Vec<_>>().join(", ")
}

/// A value in Z notation; a pair is written with an arrow.
pub fn value(value: &Value, names: Names) -> String {
    let all = |parts: &[Value], between: &str| {
        parts.iter().map(|part| self::value(part, names)).collect::<Vec<_>>().join(between)
    };
    match value {
        Value::Integer(n) => n.to_string(),
        Value::Element(given, k) => format!("element {k} of {}", names.of_identifier(*given)),
        Value::Set(members) => format!("{{{}}}", all(members, ", ")),
        Value::Tuple(parts) => all(parts, " ↦ "),
    }
}
