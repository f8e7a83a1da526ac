//! Texts, lines, Includes and Conjunctions: signatures and their findings.

use crate::check::Checker;
use crate::finding::{demand, refused, Finding};
use crate::tree::*;
use crate::types::{instantiate, same, Signature, Type};
use std::collections::{BTreeMap, BTreeSet};
use std::rc::Rc;

/// The most identifiers of a signature (38).
const MOST_IDENTIFIERS: usize = 16;

impl Checker {
    pub fn schema_expr(&mut self, schema: &SchemaExpr) -> Result<Signature, Finding> {
        match schema {
            SchemaExpr::Text(text) => self.text(text),
            SchemaExpr::Include(include) => self.lone_include(include),
            SchemaExpr::Conjunction { node, left, right } => {
                let mut signature = self.schema_expr(left)?;
                let more = self.schema_expr(right)?;
                merge(&mut signature, &more, *node)?;
                within_sixteen(&signature, *node)?;
                Ok(signature)
            }
        }
    }

    /// A Text that stands in no Axiom: its signature.
    pub fn text(&mut self, text: &Text) -> Result<Signature, Finding> {
        self.any_text(text, false)
    }

    /// An Axiom's own Text, whose identifiers become global.
    pub fn axiom_text(&mut self, text: &Text) -> Result<Signature, Finding> {
        self.any_text(text, true)
    }

    /// The lines, which do not see the Text's own identifiers, then the
    /// predicate, which does.
    fn any_text(&mut self, text: &Text, is_axiom: bool) -> Result<Signature, Finding> {
        let mut signature = Signature::new();
        for line in &text.lines {
            self.line(&mut signature, line, is_axiom)?;
        }
        self.scope.texts.push(signature);
        self.pred(&text.predicate)?;
        Ok(self.scope.texts.pop().expect("the Text just pushed"))
    }

    /// One line: its own findings, then 36 by merging and between paragraphs,
    /// then 38 by size and by count.
    fn line(
        &mut self,
        signature: &mut Signature,
        line: &Line,
        is_axiom: bool,
    ) -> Result<(), Finding> {
        let (node, brought) = match line {
            Line::Decl(decl) => (decl.node, self.decl(decl)?),
            Line::Include(include) => (include.node, self.include(include)?),
        };
        merge(signature, &brought, node)?;
        if is_axiom {
            demand(!brought.keys().any(|&id| self.is_global(id)), 36, node)?;
        }
        none_oversize(&brought, node)?;
        within_sixteen(signature, node)
    }

    /// A Decl's E must have a type power t (33), in one way only (34); its
    /// identifiers get t.
    fn decl(&mut self, decl: &Decl) -> Result<Signature, Finding> {
        let t = self.element_piece(&decl.set, decl.node)?;
        Ok(decl.identifiers.iter().map(|&id| (id, Rc::clone(&t))).collect())
    }

    /// An Include that is no line: its signature, with 38 for its components.
    pub fn lone_include(&mut self, include: &Include) -> Result<Signature, Finding> {
        let signature = self.include(include)?;
        none_oversize(&signature, include.node)?;
        Ok(signature)
    }

    /// 31 for the name, 32 for the count, then each actual's nodes, 33 and 34
    /// in turn, then 37: stroke, renames all at once, distinct outcome.
    fn include(&mut self, include: &Include) -> Result<Signature, Finding> {
        let node = include.node;
        let Some(schema) = self.scope.schemas.get(&include.schema).cloned() else {
            return refused(31, node);
        };
        demand(include.actuals.len() == schema.parameters, 32, node)?;
        let mut actuals: Vec<Rc<Type>> = Vec::new();
        for actual in &include.actuals {
            actuals.push(self.element_piece(actual, node)?);
        }
        let Some(outcome) = stroked_and_renamed(&schema.signature, include) else {
            return refused(37, node);
        };
        let put = |(id, t): (Identifier, Rc<Type>)| (id, instantiate(&t, &actuals));
        Ok(outcome.into_iter().map(put).collect())
    }
}

/// The schema's signature with the stroke on each identifier and all pairs
/// renamed at once; nothing where a stroke meets a stroked component, an old
/// name is no component or stands twice, or the outcome is not distinct.
fn stroked_and_renamed(signature: &Signature, include: &Include) -> Option<Signature> {
    let mut renames = BTreeMap::new();
    for &(old, new) in &include.renames {
        if renames.insert(old, new).is_some() {
            return None;
        }
    }
    let mut outcome = Signature::new();
    let mut stroked = BTreeSet::new();
    for (&component, type_) in signature {
        let identifier = decorate(component, include.stroke)?;
        stroked.insert(identifier);
        let renamed = renames.get(&identifier).copied().unwrap_or(identifier);
        if outcome.insert(renamed, Rc::clone(type_)).is_some() {
            return None;
        }
    }
    renames.keys().all(|old| stroked.contains(old)).then_some(outcome)
}

/// Equal identifiers in one signature merge if their types are equal (36).
fn merge(signature: &mut Signature, more: &Signature, node: NodeNumber) -> Result<(), Finding> {
    for (&identifier, type_) in more {
        match signature.get(&identifier) {
            Some(earlier) => demand(same(earlier, type_), 36, node)?,
            None => {
                signature.insert(identifier, Rc::clone(type_));
            }
        }
    }
    Ok(())
}

fn none_oversize(signature: &Signature, node: NodeNumber) -> Result<(), Finding> {
    demand(!signature.values().any(|t| t.is_oversize()), 38, node)
}

fn within_sixteen(signature: &Signature, node: NodeNumber) -> Result<(), Finding> {
    demand(signature.len() <= MOST_IDENTIFIERS, 38, node)
}
