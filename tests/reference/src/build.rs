//! From numbered nodes to the tree. The nodes have passed reading, so that
//! every operand is there and of its sort.

use crate::flat::Flat;
use crate::tree::*;

pub fn document(flat: &Flat) -> Document {
    let last = flat.count();
    let paragraphs = flat.node(last).children.iter().map(|&k| paragraph(flat, k)).collect();
    Document { node: last as u32, paragraphs }
}

fn paragraph(flat: &Flat, k: usize) -> Paragraph {
    let node = flat.node(k);
    let (words, children) = (&node.words, &node.children);
    let parameters = || words[3..3 + words[2] as usize].to_vec();
    let kind = match words[0] {
        2 => ParagraphKind::Given(words[1..].to_vec()),
        3 => ParagraphKind::Axiom(text(flat, children[0])),
        4 => ParagraphKind::Schema {
            name: words[1],
            parameters: parameters(),
            body: schema(flat, children[0]),
        },
        5 => ParagraphKind::Abbreviation {
            identifier: words[1],
            parameters: parameters(),
            body: expr(flat, children[0]),
        },
        _ => ParagraphKind::Constraint(pred(flat, children[0])),
    };
    Paragraph { node: k as u32, kind }
}

fn schema(flat: &Flat, k: usize) -> SchemaExpr {
    match flat.node(k).kind() {
        10 => SchemaExpr::Text(text(flat, k)),
        12 => SchemaExpr::Include(include(flat, k)),
        _ => SchemaExpr::Conjunction {
            node: k as u32,
            left: Box::new(schema(flat, flat.node(k).children[0])),
            right: Box::new(schema(flat, flat.node(k).children[1])),
        },
    }
}

/// A Text's first operand is its predicate, the others are its lines.
fn text(flat: &Flat, k: usize) -> Text {
    let children = &flat.node(k).children;
    Text {
        node: k as u32,
        lines: children[1..].iter().map(|&line_k| line(flat, line_k)).collect(),
        predicate: Box::new(pred(flat, children[0])),
    }
}

fn line(flat: &Flat, k: usize) -> Line {
    let node = flat.node(k);
    match node.kind() {
        11 => Line::Decl(Decl {
            node: k as u32,
            set: expr(flat, node.children[0]),
            identifiers: node.words[2..].to_vec(),
        }),
        _ => Line::Include(include(flat, k)),
    }
}

fn include(flat: &Flat, k: usize) -> Include {
    let node = flat.node(k);
    let first_rename = 4 + node.words[3] as usize;
    Include {
        node: k as u32,
        schema: node.words[1],
        stroke: node.words[2],
        actuals: node.children.iter().map(|&actual| expr(flat, actual)).collect(),
        renames: node.words[first_rename..].chunks(2).map(|pair| (pair[0], pair[1])).collect(),
    }
}

fn pred(flat: &Flat, k: usize) -> Pred {
    let node = flat.node(k);
    let child = |i: usize| node.children[i];
    let inner = |i: usize| Box::new(pred(flat, child(i)));
    let relation = |r| PredKind::Relation(r, expr(flat, child(0)), expr(flat, child(1)));
    let connective = |c| PredKind::Connective(c, inner(0), inner(1));
    let quantified = |q| PredKind::Quantified(q, text(flat, child(0)), inner(1));
    let kind = match node.kind() {
        20 => PredKind::True,
        21 => relation(Relation::Equal),
        22 => relation(Relation::Member),
        23 => relation(Relation::AtMost),
        24 => PredKind::Not(inner(0)),
        25 => connective(Connective::And),
        26 => connective(Connective::Or),
        27 => connective(Connective::Implies),
        28 => quantified(Quantifier::Forall),
        _ => quantified(Quantifier::Exists),
    };
    Pred { node: k as u32, kind }
}

fn expr(flat: &Flat, k: usize) -> Expr {
    let node = flat.node(k);
    let all = || node.children.iter().map(|&child| expr(flat, child)).collect();
    let one = |i: usize| Box::new(expr(flat, node.children[i]));
    let arithmetic = |operator| ExprKind::Arithmetic(operator, one(0), one(1));
    let kind = match node.kind() {
        30 => ExprKind::Ref(node.words[1], all()),
        31 => ExprKind::Number(node.words[1] as i32),
        32 => ExprKind::Integers,
        33 => ExprKind::Set(all()),
        34 => ExprKind::Tuple(all()),
        35 => ExprKind::Product(all()),
        36 => ExprKind::Power(one(0)),
        37 => ExprKind::Apply(one(0), one(1)),
        38 => ExprKind::Select(one(0), node.words[2]),
        39 => ExprKind::Theta(node.words[1], node.words[2]),
        40 => ExprKind::SchemaSet(Box::new(include(flat, node.children[0]))),
        41 => arithmetic(Operator::Plus),
        42 => arithmetic(Operator::Minus),
        43 => arithmetic(Operator::Times),
        44 => arithmetic(Operator::Div),
        45 => arithmetic(Operator::Mod),
        _ => ExprKind::Comprehension(Box::new(text(flat, node.children[0])), one(1)),
    };
    Expr { node: k as u32, kind }
}
