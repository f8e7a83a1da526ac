//! Assignments of a Text: its Decl sets are worked out once, then assignments
//! run with the first identifier slowest, ascending.

use crate::run::{trouble, Run, Stop};
use crate::tree::*;
use crate::values::{SetBuilder, Value};

/// An identifier with the members that it runs over.
type Range = (Identifier, Vec<Value>);

impl Run {
    /// A Comprehension adds each body, over the assignments where the Text's
    /// predicate is true.
    pub fn comprehension(
        &mut self,
        node: NodeNumber,
        text: &Text,
        body: &Expr,
    ) -> Result<Value, Stop> {
        let mut set = SetBuilder::default();
        self.some_assignment(text, |run| {
            let member = run.expr(body)?;
            match set.add(member) {
                true => Ok(false),
                false => trouble(55, node),
            }
        })?;
        Ok(set.done())
    }

    /// Visits the assignments where the Text's predicate is true, and ends at
    /// the first for which the visit says true.
    pub fn some_assignment(
        &mut self,
        text: &Text,
        mut visit: impl FnMut(&mut Run) -> Result<bool, Stop>,
    ) -> Result<bool, Stop> {
        let ranges = self.ranges(text)?;
        self.texts.push(Vec::new());
        let found = self.assign(&ranges, text, &mut visit)?;
        self.texts.pop();
        Ok(found)
    }

    /// All lines' sets, even where the first is empty. A value that is no set
    /// is 51 at the Decl; an Include line is 54 when its turn comes.
    fn ranges(&mut self, text: &Text) -> Result<Vec<Range>, Stop> {
        let mut ranges = Vec::new();
        for line in &text.lines {
            match line {
                Line::Include(include) => return trouble(54, include.node),
                Line::Decl(decl) => {
                    let Value::Set(members) = self.expr(&decl.set)? else {
                        return trouble(51, decl.node);
                    };
                    ranges.extend(decl.identifiers.iter().map(|&id| (id, members.clone())));
                }
            }
        }
        Ok(ranges)
    }

    /// The assignments of the ranges left, in the innermost Text.
    fn assign(
        &mut self,
        ranges: &[Range],
        text: &Text,
        visit: &mut impl FnMut(&mut Run) -> Result<bool, Stop>,
    ) -> Result<bool, Stop> {
        self.step()?;
        let Some(((identifier, members), others)) = ranges.split_first() else {
            return Ok(self.pred(&text.predicate)? && visit(self)?);
        };
        for member in members {
            self.innermost().push((*identifier, member.clone()));
            let found = self.assign(others, text, visit)?;
            self.innermost().pop();
            if found {
                return Ok(true);
            }
        }
        Ok(false)
    }

    fn innermost(&mut self) -> &mut Vec<(Identifier, Value)> {
        self.texts.last_mut().expect("a Text is open")
    }
}
