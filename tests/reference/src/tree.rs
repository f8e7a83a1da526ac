//! The tree of a readable document. Each node carries its number.

pub type Identifier = u32;
pub type SchemaName = u32;
pub type NodeNumber = u32;

pub struct Document {
    pub node: NodeNumber,
    pub paragraphs: Vec<Paragraph>,
}

pub struct Paragraph {
    pub node: NodeNumber,
    pub kind: ParagraphKind,
}

pub enum ParagraphKind {
    Given(Vec<Identifier>),
    Axiom(Text),
    Schema { name: SchemaName, parameters: Vec<Identifier>, body: SchemaExpr },
    Abbreviation { identifier: Identifier, parameters: Vec<Identifier>, body: Expr },
    Constraint(Pred),
}

pub struct Text {
    pub node: NodeNumber,
    pub lines: Vec<Line>,
    pub predicate: Box<Pred>,
}

pub enum Line {
    Decl(Decl),
    Include(Include),
}

pub struct Decl {
    pub node: NodeNumber,
    pub set: Expr,
    pub identifiers: Vec<Identifier>,
}

pub struct Include {
    pub node: NodeNumber,
    pub schema: SchemaName,
    pub stroke: u32,
    pub actuals: Vec<Expr>,
    pub renames: Vec<(Identifier, Identifier)>,
}

pub enum SchemaExpr {
    Text(Text),
    Include(Include),
    Conjunction { node: NodeNumber, left: Box<SchemaExpr>, right: Box<SchemaExpr> },
}

pub struct Pred {
    pub node: NodeNumber,
    pub kind: PredKind,
}

pub enum PredKind {
    True,
    Relation(Relation, Expr, Expr),
    Not(Box<Pred>),
    Connective(Connective, Box<Pred>, Box<Pred>),
    Quantified(Quantifier, Text, Box<Pred>),
}

#[derive(Clone, Copy, PartialEq, Eq, Debug)]
pub enum Relation {
    Equal,
    Member,
    AtMost,
}

#[derive(Clone, Copy, PartialEq, Eq, Debug)]
pub enum Connective {
    And,
    Or,
    Implies,
}

#[derive(Clone, Copy, PartialEq, Eq, Debug)]
pub enum Quantifier {
    Forall,
    Exists,
}

pub struct Expr {
    pub node: NodeNumber,
    pub kind: ExprKind,
}

pub enum ExprKind {
    Ref(Identifier, Vec<Expr>),
    Number(i32),
    Integers,
    Set(Vec<Expr>),
    Tuple(Vec<Expr>),
    Product(Vec<Expr>),
    Power(Box<Expr>),
    Apply(Box<Expr>, Box<Expr>),
    Select(Box<Expr>, Identifier),
    Theta(SchemaName, u32),
    SchemaSet(Box<Include>),
    Arithmetic(Operator, Box<Expr>, Box<Expr>),
    Comprehension(Box<Text>, Box<Expr>),
}

#[derive(Clone, Copy, PartialEq, Eq, Debug)]
pub enum Operator {
    Plus,
    Minus,
    Times,
    Div,
    Mod,
}

/// The stroke of an identifier: 0 none, 1 ', 2 ?, 3 !.
pub fn stroke_of(identifier: Identifier) -> u32 {
    identifier % 4
}

/// The stroke put on an identifier; nothing where a stroke meets a stroked
/// one. Stroke 0 is no stroke and changes nothing.
pub fn decorate(identifier: Identifier, stroke: u32) -> Option<Identifier> {
    match stroke {
        0 => Some(identifier),
        _ if stroke_of(identifier) == 0 => Some(identifier + stroke),
        _ => None,
    }
}
