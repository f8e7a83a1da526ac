//! Evaluation of predicates, and Member's test.

use crate::run::{trouble, Run, Stop};
use crate::tree::*;
use crate::values::Value;

impl Run {
    /// and, or, implies skip the right side when the left decides.
    pub fn pred(&mut self, pred: &Pred) -> Result<bool, Stop> {
        match &pred.kind {
            PredKind::True => Ok(true),
            PredKind::Relation(relation, left, right) => {
                self.relation(pred.node, *relation, left, right)
            }
            PredKind::Not(inner) => Ok(!self.pred(inner)?),
            PredKind::Connective(connective, left, right) => {
                let left = self.pred(left)?;
                match (connective, left) {
                    (Connective::And, false) => Ok(false),
                    (Connective::Or, true) => Ok(true),
                    (Connective::Implies, false) => Ok(true),
                    _ => self.pred(right),
                }
            }
            PredKind::Quantified(Quantifier::Forall, text, body) => {
                Ok(!self.some_assignment(text, |run| Ok(!run.pred(body)?))?)
            }
            PredKind::Quantified(Quantifier::Exists, text, body) => {
                self.some_assignment(text, |run| run.pred(body))
            }
        }
    }

    fn relation(
        &mut self,
        node: NodeNumber,
        relation: Relation,
        left: &Expr,
        right: &Expr,
    ) -> Result<bool, Stop> {
        let left = self.expr(left)?;
        if relation == Relation::Member {
            return self.test(&left, right);
        }
        let right = self.expr(right)?;
        match (relation, left, right) {
            (Relation::Equal, left, right) => Ok(left == right),
            (_, Value::Integer(a), Value::Integer(b)) => Ok(a <= b),
            _ => trouble(51, node),
        }
    }

    /// Member's test of a value against an E. The first miss ends it; a wrong
    /// sort or number of parts is 51 at the node tested against.
    pub fn test(&mut self, value: &Value, against: &Expr) -> Result<bool, Stop> {
        self.step()?;
        match (&against.kind, value) {
            (ExprKind::Integers, Value::Integer(_)) => Ok(true),
            (ExprKind::Power(operand), Value::Set(members)) => {
                for member in members {
                    if !self.test(member, operand)? {
                        return Ok(false);
                    }
                }
                Ok(true)
            }
            (ExprKind::Product(operands), Value::Tuple(parts)) if parts.len() == operands.len() => {
                for (part, operand) in parts.iter().zip(operands) {
                    if !self.test(part, operand)? {
                        return Ok(false);
                    }
                }
                Ok(true)
            }
            (ExprKind::Integers | ExprKind::Power(_) | ExprKind::Product(_), _) => {
                trouble(51, against.node)
            }
            _ => match self.expr(against)? {
                Value::Set(members) => Ok(members.contains(value)),
                _ => trouble(51, against.node),
            },
        }
    }
}
