//! Power and Product as values (document 02, ask 1): their members ascending,
//! 55 where the set passes 64 words.

use crate::run::{trouble, Run, Stop};
use crate::tree::*;
use crate::values::{Value, MOST_WORDS};

impl Run {
    /// An operand that is no set is 51 at the Power.
    pub fn power(&mut self, node: NodeNumber, operand: &Expr) -> Result<Value, Stop> {
        match self.expr(operand)? {
            Value::Set(members) if power_length(&members) <= MOST_WORDS => {
                Ok(Value::Set(subsets(&members)))
            }
            Value::Set(_) => trouble(55, node),
            _ => trouble(51, node),
        }
    }

    /// All operands are worked out; then one that is no set is 51 at the
    /// Product.
    pub fn product(&mut self, node: NodeNumber, operands: &[Expr]) -> Result<Value, Stop> {
        let mut sets = Vec::with_capacity(operands.len());
        for value in self.exprs(operands)? {
            match value {
                Value::Set(members) => sets.push(members),
                _ => return trouble(51, node),
            }
        }
        match product_length(&sets) <= MOST_WORDS {
            true => Ok(Value::Set(tuples(&sets))),
            false => trouble(55, node),
        }
    }
}

fn length(members: &[Value]) -> usize {
    members.iter().map(Value::length).sum()
}

/// Each of the 2^n subsets has two words before its members, and each member
/// stands in half of them.
fn power_length(members: &[Value]) -> usize {
    2 + (2 << members.len()) + (length(members) << members.len()) / 2
}

/// Each tuple has two words before its parts, and each member of an operand
/// stands in as many tuples as the other operands make.
fn product_length(sets: &[Vec<Value>]) -> usize {
    let tuples: usize = sets.iter().map(Vec::len).product();
    let parts: usize = match tuples {
        0 => 0,
        _ => sets.iter().map(|set| length(set) * (tuples / set.len())).sum(),
    };
    2 + 2 * tuples + parts
}

/// Smaller sets first, since the count is the second word.
fn subsets(members: &[Value]) -> Vec<Value> {
    let mut found: Vec<Value> = (0..1_usize << members.len())
        .map(|chosen| {
            let is_chosen = |i: &usize| chosen >> i & 1 == 1;
            Value::Set((0..members.len()).filter(is_chosen).map(|i| members[i].clone()).collect())
        })
        .collect();
    found.sort();
    found
}

/// The last operand's member changes fastest.
fn tuples(sets: &[Vec<Value>]) -> Vec<Value> {
    let Some((first, rest)) = sets.split_first() else {
        return vec![Value::Tuple(Vec::new())];
    };
    let ends = tuples(rest);
    let mut found = Vec::with_capacity(first.len() * ends.len());
    for member in first {
        for end in &ends {
            if let Value::Tuple(parts) = end {
                let mut all = Vec::with_capacity(sets.len());
                all.push(member.clone());
                all.extend_from_slice(parts);
                found.push(Value::Tuple(all));
            }
        }
    }
    found
}
