//! Evaluation of expressions: left to right, operands first, stopping at the
//! first trouble. At one node 51 comes before 52 before 53.

use crate::run::{trouble, Bound, Run, Stop};
use crate::tree::*;
use crate::values::{SetBuilder, Value, MOST_WORDS};

impl Run {
    /// Works out an expression; its value joins the list when it is complete.
    pub fn expr(&mut self, expr: &Expr) -> Result<Value, Stop> {
        self.step()?;
        let value = self.expr_kind(expr)?;
        if self.listing {
            self.list.push((expr.node, value.clone()));
        }
        Ok(value)
    }

    pub fn exprs(&mut self, exprs: &[Expr]) -> Result<Vec<Value>, Stop> {
        exprs.iter().map(|expr| self.expr(expr)).collect()
    }

    /// As values ℤ, Select, Theta and SchemaSet are 54 before their operands.
    fn expr_kind(&mut self, expr: &Expr) -> Result<Value, Stop> {
        let node = expr.node;
        match &expr.kind {
            ExprKind::Ref(identifier, actuals) => self.reference(node, *identifier, actuals),
            ExprKind::Number(n) => Ok(Value::Integer(*n)),
            ExprKind::Set(members) => self.set(node, members),
            ExprKind::Tuple(parts) => {
                let tuple = Value::Tuple(self.exprs(parts)?);
                if tuple.length() > MOST_WORDS {
                    return trouble(55, node);
                }
                Ok(tuple)
            }
            ExprKind::Apply(function, argument) => {
                let function = self.expr(function)?;
                let argument = self.expr(argument)?;
                apply(node, &function, &argument)
            }
            ExprKind::Arithmetic(operator, left, right) => {
                let left = self.expr(left)?;
                let right = self.expr(right)?;
                arithmetic(node, *operator, &left, &right)
            }
            ExprKind::Comprehension(text, body) => self.comprehension(node, text, body),
            ExprKind::Power(operand) => self.power(node, operand),
            ExprKind::Product(operands) => self.product(node, operands),
            ExprKind::Integers
            | ExprKind::Select(..)
            | ExprKind::Theta(..)
            | ExprKind::SchemaSet(_) => trouble(54, node),
        }
    }

    /// Actuals first; then unknown 51, generic abbreviation 54, actuals on
    /// another name 51.
    fn reference(
        &mut self,
        node: NodeNumber,
        identifier: Identifier,
        actuals: &[Expr],
    ) -> Result<Value, Stop> {
        self.exprs(actuals)?;
        match self.look_up(identifier) {
            None => trouble(51, node),
            Some(Bound::GenericAbbreviation) => trouble(54, node),
            Some(Bound::Value(_)) if !actuals.is_empty() => trouble(51, node),
            Some(Bound::Value(value)) => Ok(value),
        }
    }

    /// Set members are added one at a time, as each is worked out.
    fn set(&mut self, node: NodeNumber, members: &[Expr]) -> Result<Value, Stop> {
        let mut set = SetBuilder::default();
        for member in members {
            let member = self.expr(member)?;
            if !set.add(member) {
                return trouble(55, node);
            }
        }
        Ok(set.done())
    }
}

/// Apply has a value where the function pairs the argument with exactly one
/// result. A function that is no set of pairs is 51; no result, and several,
/// are 52.
fn apply(node: NodeNumber, function: &Value, argument: &Value) -> Result<Value, Stop> {
    let Some(pairs) = pairs(function) else {
        return trouble(51, node);
    };
    let paired = pairs.into_iter().filter(|(first, _)| *first == argument);
    let results: Vec<&Value> = paired.map(|(_, second)| second).collect();
    match results[..] {
        [result] => Ok(result.clone()),
        _ => trouble(52, node),
    }
}

/// The members of a set of pairs; nothing where the value is no set, or any
/// member no pair.
fn pairs(value: &Value) -> Option<Vec<(&Value, &Value)>> {
    match value {
        Value::Set(members) => members.iter().map(pair).collect(),
        _ => None,
    }
}

/// The two parts of a pair; nothing for any other value, longer tuples included.
fn pair(value: &Value) -> Option<(&Value, &Value)> {
    match value {
        Value::Tuple(parts) => match &parts[..] {
            [first, second] => Some((first, second)),
            _ => None,
        },
        _ => None,
    }
}

/// 51 for a value that is no integer, 52 for a divisor under 1, 53 outside 32
/// bits signed.
fn arithmetic(
    node: NodeNumber,
    operator: Operator,
    left: &Value,
    right: &Value,
) -> Result<Value, Stop> {
    let (Value::Integer(a), Value::Integer(b)) = (left, right) else {
        return trouble(51, node);
    };
    let (a, b) = (i64::from(*a), i64::from(*b));
    if matches!(operator, Operator::Div | Operator::Mod) && b < 1 {
        return trouble(52, node);
    }
    let result = match operator {
        Operator::Plus => a + b,
        Operator::Minus => a - b,
        Operator::Times => a * b,
        Operator::Div => a.div_euclid(b),
        Operator::Mod => a.rem_euclid(b),
    };
    match i32::try_from(result) {
        Ok(n) => Ok(Value::Integer(n)),
        Err(_) => trouble(53, node),
    }
}
