//! One short maker for each kind.

use crate::{Operand, Tree};
use Operand::{Node, Word};

pub fn node(kind: u32, operands: Vec<Operand>) -> Tree {
    Tree { kind, operands }
}

fn nodes(trees: Vec<Tree>) -> Vec<Operand> {
    trees.into_iter().map(Node).collect()
}

fn words(words: &[u32]) -> Vec<Operand> {
    words.iter().copied().map(Word).collect()
}

fn both(head: Vec<Operand>, tail: Vec<Operand>) -> Vec<Operand> {
    head.into_iter().chain(tail).collect()
}

/// The identifier of a name with a stroke.
pub const fn id(name: u32, stroke: u32) -> u32 {
    name * 4 + stroke
}

pub fn document(paragraphs: Vec<Tree>) -> Tree {
    node(1, nodes(paragraphs))
}

pub fn given(identifiers: &[u32]) -> Tree {
    node(2, words(identifiers))
}

pub fn axiom(text: Tree) -> Tree {
    node(3, vec![Node(text)])
}

pub fn schema(name: u32, parameters: &[u32], body: Tree) -> Tree {
    let head = both(words(&[name, parameters.len() as u32]), words(parameters));
    node(4, both(head, vec![Node(body)]))
}

pub fn abbreviation(identifier: u32, parameters: &[u32], body: Tree) -> Tree {
    let head = both(words(&[identifier, parameters.len() as u32]), words(parameters));
    node(5, both(head, vec![Node(body)]))
}

pub fn constraint(predicate: Tree) -> Tree {
    node(6, vec![Node(predicate)])
}

pub fn text(predicate: Tree, lines: Vec<Tree>) -> Tree {
    node(10, both(vec![Node(predicate)], nodes(lines)))
}

pub fn decl(set: Tree, identifiers: &[u32]) -> Tree {
    node(11, both(vec![Node(set)], words(identifiers)))
}

pub fn include(schema: u32, stroke: u32, actuals: Vec<Tree>, renames: &[(u32, u32)]) -> Tree {
    let head = both(words(&[schema, stroke, actuals.len() as u32]), nodes(actuals));
    let pairs = renames.iter().flat_map(|&(old, new)| [Word(old), Word(new)]).collect();
    node(12, both(head, pairs))
}

pub fn conjunction(left: Tree, right: Tree) -> Tree {
    node(15, nodes(vec![left, right]))
}

pub fn truth() -> Tree {
    node(20, vec![])
}

pub fn equal(left: Tree, right: Tree) -> Tree {
    node(21, nodes(vec![left, right]))
}

pub fn member(left: Tree, right: Tree) -> Tree {
    node(22, nodes(vec![left, right]))
}

pub fn at_most(left: Tree, right: Tree) -> Tree {
    node(23, nodes(vec![left, right]))
}

pub fn not(predicate: Tree) -> Tree {
    node(24, vec![Node(predicate)])
}

pub fn and(left: Tree, right: Tree) -> Tree {
    node(25, nodes(vec![left, right]))
}

pub fn or(left: Tree, right: Tree) -> Tree {
    node(26, nodes(vec![left, right]))
}

pub fn implies(left: Tree, right: Tree) -> Tree {
    node(27, nodes(vec![left, right]))
}

pub fn forall(text: Tree, body: Tree) -> Tree {
    node(28, nodes(vec![text, body]))
}

pub fn exists(text: Tree, body: Tree) -> Tree {
    node(29, nodes(vec![text, body]))
}

pub fn reference(identifier: u32) -> Tree {
    node(30, vec![Word(identifier)])
}

pub fn generic(identifier: u32, actuals: Vec<Tree>) -> Tree {
    node(30, both(vec![Word(identifier)], nodes(actuals)))
}

pub fn number(n: u32) -> Tree {
    node(31, vec![Word(n)])
}

pub fn integers() -> Tree {
    node(32, vec![])
}

pub fn set(members: Vec<Tree>) -> Tree {
    node(33, nodes(members))
}

pub fn tuple(parts: Vec<Tree>) -> Tree {
    node(34, nodes(parts))
}

pub fn product(operands: Vec<Tree>) -> Tree {
    node(35, nodes(operands))
}

pub fn power(operand: Tree) -> Tree {
    node(36, vec![Node(operand)])
}

pub fn apply(function: Tree, argument: Tree) -> Tree {
    node(37, nodes(vec![function, argument]))
}

pub fn select(operand: Tree, identifier: u32) -> Tree {
    node(38, vec![Node(operand), Word(identifier)])
}

pub fn theta(schema: u32, stroke: u32) -> Tree {
    node(39, words(&[schema, stroke]))
}

pub fn schema_set(include: Tree) -> Tree {
    node(40, vec![Node(include)])
}

/// Kind 41 +, 42 −, 43 ×, 44 div, 45 mod.
pub fn arithmetic(kind: u32, left: Tree, right: Tree) -> Tree {
    node(kind, nodes(vec![left, right]))
}

pub fn comprehension(text: Tree, body: Tree) -> Tree {
    node(46, nodes(vec![text, body]))
}

/// −n, which has no Number of its own.
pub fn negative(n: u32) -> Tree {
    arithmetic(42, number(0), number(n))
}
