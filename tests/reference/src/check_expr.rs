//! Pieces: the unknowns and equations of expressions, and predicates, whose
//! relations close pieces.

use crate::check::Checker;
use crate::finding::{demand, refused, Finding};
use crate::tree::*;
use crate::types::{binding, Signature, Type};
use crate::unify::{Cell, Graph};
use std::rc::Rc;

/// A piece while it is open: its equations, its unknowns, its nodes' types.
#[derive(Default)]
struct Piece {
    graph: Graph,
    unknowns: Vec<Cell>,
    typed: Vec<(NodeNumber, Cell)>,
}

impl Piece {
    /// A new unknown type of the piece.
    fn unknown(&mut self) -> Cell {
        let cell = self.graph.unknown();
        self.unknowns.push(cell);
        cell
    }

    /// Adds the equations of a node, all of them before they are judged with
    /// those before it: 33 where two different formers stand side by side,
    /// else 39 where a type would contain itself.
    fn equate(&mut self, equations: &[(Cell, Cell)], node: NodeNumber) -> Result<(), Finding> {
        demand(equations.iter().all(|&(a, b)| self.graph.join(a, b)), 33, node)?;
        demand(self.graph.is_finite(), 39, node)
    }

    /// The t of each of a node's types that must be power t.
    fn elements_of(&mut self, cells: &[Cell], node: NodeNumber) -> Result<Vec<Cell>, Finding> {
        let elements: Vec<Cell> = cells.iter().map(|_| self.graph.unknown()).collect();
        let powers = elements.iter().map(|&element| self.graph.power(element));
        let equations: Vec<_> = cells.iter().copied().zip(powers).collect();
        self.equate(&equations, node)?;
        Ok(elements)
    }

    fn element_of(&mut self, cell: Cell, node: NodeNumber) -> Result<Cell, Finding> {
        Ok(self.elements_of(&[cell], node)?[0])
    }
}

impl Checker {
    /// Closes a piece at a node: 34 unless each unknown has one type.
    fn close(&mut self, piece: &Piece, node: NodeNumber) -> Result<(), Finding> {
        let mut settler = piece.graph.settler();
        for &unknown in &piece.unknowns {
            demand(settler.settle(unknown).is_some(), 34, node)?;
        }
        if self.record {
            for &(typed, cell) in &piece.typed {
                let settled = settler.settle(cell).expect("a closed piece has one solution");
                self.checked.node_types.insert(typed, settled);
            }
        }
        Ok(())
    }

    /// The type of an Abbreviation's E, a piece that closes at the node.
    pub fn whole_piece(&mut self, expr: &Expr, node: NodeNumber) -> Result<Rc<Type>, Finding> {
        let mut piece = Piece::default();
        let cell = self.expr(&mut piece, expr)?;
        self.close(&piece, node)?;
        Ok(piece.graph.settler().settle(cell).expect("a closed piece has one solution"))
    }

    /// The t where the piece E of a Decl or Include actual has type power t:
    /// 33, then 34 at the node.
    pub fn element_piece(&mut self, expr: &Expr, node: NodeNumber) -> Result<Rc<Type>, Finding> {
        let mut piece = Piece::default();
        let cell = self.expr(&mut piece, expr)?;
        let element = piece.element_of(cell, node)?;
        self.close(&piece, node)?;
        Ok(piece.graph.settler().settle(element).expect("a closed piece has one solution"))
    }

    pub fn pred(&mut self, pred: &Pred) -> Result<(), Finding> {
        match &pred.kind {
            PredKind::True => Ok(()),
            PredKind::Relation(relation, left, right) => {
                self.relation(pred.node, *relation, left, right)
            }
            PredKind::Not(inner) => self.pred(inner),
            PredKind::Connective(_, left, right) => {
                self.pred(left)?;
                self.pred(right)
            }
            PredKind::Quantified(_, text, body) => {
                let signature = self.text(text)?;
                self.beside(signature, |checker| checker.pred(body))
            }
        }
    }

    /// Visits the body beside a Text, which sees the Text's identifiers.
    fn beside<T>(
        &mut self,
        signature: Signature,
        visit: impl FnOnce(&mut Checker) -> Result<T, Finding>,
    ) -> Result<T, Finding> {
        self.scope.texts.push(signature);
        let visited = visit(self)?;
        self.scope.texts.pop();
        Ok(visited)
    }

    /// The two E of a relation are one piece: equal sides; power of left =
    /// right; both ℤ.
    fn relation(
        &mut self,
        node: NodeNumber,
        relation: Relation,
        left: &Expr,
        right: &Expr,
    ) -> Result<(), Finding> {
        let mut piece = Piece::default();
        let left = self.expr(&mut piece, left)?;
        let right = self.expr(&mut piece, right)?;
        match relation {
            Relation::Equal => piece.equate(&[(left, right)], node)?,
            Relation::Member => {
                let power = piece.graph.power(left);
                piece.equate(&[(power, right)], node)?;
            }
            Relation::AtMost => both_integers(&mut piece, left, right, node)?,
        }
        self.close(&piece, node)
    }

    /// Visits an expression, operands first, and gives its type's cell.
    fn expr(&mut self, piece: &mut Piece, expr: &Expr) -> Result<Cell, Finding> {
        let cell = self.expr_kind(piece, expr)?;
        piece.typed.push((expr.node, cell));
        Ok(cell)
    }

    fn exprs(&mut self, piece: &mut Piece, exprs: &[Expr]) -> Result<Vec<Cell>, Finding> {
        exprs.iter().map(|expr| self.expr(piece, expr)).collect()
    }

    fn expr_kind(&mut self, piece: &mut Piece, expr: &Expr) -> Result<Cell, Finding> {
        let node = expr.node;
        match &expr.kind {
            ExprKind::Ref(identifier, actuals) => self.reference(piece, node, *identifier, actuals),
            ExprKind::Number(_) => Ok(piece.graph.integer()),
            ExprKind::Integers => {
                let integer = piece.graph.integer();
                Ok(piece.graph.power(integer))
            }
            ExprKind::Set(members) => self.set(piece, node, members),
            ExprKind::Tuple(parts) => {
                let parts = self.exprs(piece, parts)?;
                Ok(piece.graph.product(parts))
            }
            ExprKind::Product(operands) => self.product(piece, node, operands),
            ExprKind::Power(operand) => self.power(piece, node, operand),
            ExprKind::Apply(function, argument) => self.apply(piece, node, function, argument),
            ExprKind::Select(operand, identifier) => self.select(piece, node, operand, *identifier),
            ExprKind::Theta(schema, stroke) => {
                let type_ = self.theta(node, *schema, *stroke)?;
                Ok(piece.graph.enter(&type_, &[]))
            }
            ExprKind::SchemaSet(include) => {
                let type_ = Type::Power(Rc::new(binding(&self.lone_include(include)?)));
                Ok(piece.graph.enter(&type_, &[]))
            }
            ExprKind::Arithmetic(_, left, right) => self.arithmetic(piece, node, left, right),
            ExprKind::Comprehension(text, body) => {
                let signature = self.text(text)?;
                let body = self.beside(signature, |checker| checker.expr(piece, body))?;
                Ok(piece.graph.power(body))
            }
        }
    }

    /// The operand must be a power; the type is the power of that.
    fn power(
        &mut self,
        piece: &mut Piece,
        node: NodeNumber,
        operand: &Expr,
    ) -> Result<Cell, Finding> {
        let operand = self.expr(piece, operand)?;
        let element = piece.element_of(operand, node)?;
        let power = piece.graph.power(element);
        Ok(piece.graph.power(power))
    }

    /// 35 unless every solution so far has a binding with the component.
    fn select(
        &mut self,
        piece: &mut Piece,
        node: NodeNumber,
        operand: &Expr,
        identifier: Identifier,
    ) -> Result<Cell, Finding> {
        let operand = self.expr(piece, operand)?;
        let component = piece.graph.component(operand, identifier);
        component.ok_or(Finding { number: 35, place: node })
    }

    fn arithmetic(
        &mut self,
        piece: &mut Piece,
        node: NodeNumber,
        left: &Expr,
        right: &Expr,
    ) -> Result<Cell, Finding> {
        let left = self.expr(piece, left)?;
        let right = self.expr(piece, right)?;
        both_integers(piece, left, right, node)?;
        Ok(piece.graph.integer())
    }

    /// A Ref's actuals come first, then its own 31, 32 and 33. A generic name
    /// without actuals has an unknown for each of its parameters.
    fn reference(
        &mut self,
        piece: &mut Piece,
        node: NodeNumber,
        identifier: Identifier,
        actuals: &[Expr],
    ) -> Result<Cell, Finding> {
        let actuals = self.exprs(piece, actuals)?;
        let Some(meaning) = self.scope.look_up(identifier) else {
            return refused(31, node);
        };
        let count = actuals.len();
        demand(count == 0 || count == meaning.parameters, 32, node)?;
        let elements = match count {
            0 => (0..meaning.parameters).map(|_| piece.unknown()).collect(),
            _ => piece.elements_of(&actuals, node)?,
        };
        Ok(piece.graph.enter(&meaning.type_, &elements))
    }

    /// Members of a Set have its element type, equated after all are visited.
    fn set(
        &mut self,
        piece: &mut Piece,
        node: NodeNumber,
        members: &[Expr],
    ) -> Result<Cell, Finding> {
        let members = self.exprs(piece, members)?;
        let element = piece.unknown();
        let equations: Vec<_> = members.into_iter().map(|member| (member, element)).collect();
        piece.equate(&equations, node)?;
        Ok(piece.graph.power(element))
    }

    fn product(
        &mut self,
        piece: &mut Piece,
        node: NodeNumber,
        operands: &[Expr],
    ) -> Result<Cell, Finding> {
        let operands = self.exprs(piece, operands)?;
        let elements = piece.elements_of(&operands, node)?;
        let product = piece.graph.product(elements);
        Ok(piece.graph.power(product))
    }

    /// Apply: function = power of (argument × result).
    fn apply(
        &mut self,
        piece: &mut Piece,
        node: NodeNumber,
        function: &Expr,
        argument: &Expr,
    ) -> Result<Cell, Finding> {
        let function = self.expr(piece, function)?;
        let argument = self.expr(piece, argument)?;
        let result = piece.unknown();
        let pair = piece.graph.product(vec![argument, result]);
        let power = piece.graph.power(pair);
        piece.equate(&[(function, power)], node)?;
        Ok(result)
    }

    /// Theta, strictly by number: 31 for the schema's name and for each
    /// decorated identifier, 32 for a generic schema, 37 for a stroke on a
    /// stroked component.
    fn theta(
        &mut self,
        node: NodeNumber,
        schema: SchemaName,
        stroke: u32,
    ) -> Result<Type, Finding> {
        let Some(schema) = self.scope.schemas.get(&schema) else {
            return refused(31, node);
        };
        let mut components = Signature::new();
        for &component in schema.signature.keys() {
            if let Some(decorated) = decorate(component, stroke) {
                match self.scope.look_up(decorated) {
                    Some(found) if found.parameters == 0 => {
                        components.insert(component, found.type_);
                    }
                    _ => return refused(31, node),
                }
            }
        }
        demand(schema.parameters == 0, 32, node)?;
        demand(components.len() == schema.signature.len(), 37, node)?;
        Ok(binding(&components))
    }
}

/// Arithmetic and ≤: both operands are ℤ.
fn both_integers(
    piece: &mut Piece,
    left: Cell,
    right: Cell,
    node: NodeNumber,
) -> Result<(), Finding> {
    let integer = piece.graph.integer();
    piece.equate(&[(left, integer), (right, integer)], node)
}
