//! The check call: reading, 21, 22 for an empty area, then the paragraphs in
//! Document order, 22 after all else in each.

use crate::dictionary::{Class, Dictionary, Entry};
use crate::finding::{demand, Finding};
use crate::reading::read;
use crate::scope::{Meaning, SchemaMeaning, Scope};
use crate::tree::*;
use crate::types::{binding, Type};
use crate::WORK_WORDS;
use std::collections::BTreeMap;
use std::rc::Rc;

/// What an accepted document leaves: its dictionary, and each expression
/// node's accepted type, that in its piece's one solution.
#[derive(Debug, Default)]
pub struct Checked {
    pub dictionary: Dictionary,
    pub node_types: BTreeMap<NodeNumber, Rc<Type>>,
}

/// Checks a document with a dictionary area and a work area of these lengths.
pub fn check(words: &[u32], dictionary: usize, work: usize) -> Result<Checked, Finding> {
    let document = read(words)?;
    demand(work >= WORK_WORDS, 21, 0)?;
    check_tree(&document, dictionary, true)
}

/// The same, leaving the dictionary's words in the area: zero after them, and
/// zero everywhere after a refusal; the work area is zero after every call.
pub fn check_into(words: &[u32], dictionary: &mut [u32], work: &mut [u32]) -> Result<(), Finding> {
    dictionary.fill(0);
    work.fill(0);
    let document = read(words)?;
    demand(work.len() >= WORK_WORDS, 21, 0)?;
    let found = check_tree(&document, dictionary.len(), false)?.dictionary.words();
    dictionary[..found.len()].copy_from_slice(&found);
    Ok(())
}

/// The paragraphs of a readable document; node types only where asked for.
pub fn check_tree(document: &Document, area: usize, record: bool) -> Result<Checked, Finding> {
    demand(area > 0, 22, 0)?;
    let mut checker = Checker { scope: Scope::default(), checked: Checked::default(), record };
    for paragraph in &document.paragraphs {
        checker.paragraph(paragraph)?;
        demand(checker.checked.dictionary.length() <= area, 22, paragraph.node)?;
    }
    Ok(checker.checked)
}

pub struct Checker {
    pub scope: Scope,
    pub checked: Checked,
    pub record: bool,
}

impl Checker {
    fn paragraph(&mut self, paragraph: &Paragraph) -> Result<(), Finding> {
        let node = paragraph.node;
        match &paragraph.kind {
            ParagraphKind::Given(identifiers) => self.given(node, identifiers),
            ParagraphKind::Axiom(text) => self.axiom(text),
            ParagraphKind::Schema { name, parameters, body } => {
                self.schema(*name, parameters, body)
            }
            ParagraphKind::Abbreviation { identifier, parameters, body } => {
                self.abbreviation(node, *identifier, parameters, body)
            }
            ParagraphKind::Constraint(pred) => self.pred(pred),
        }
    }

    /// A given X has type power X. 36 where an earlier Axiom's Include brought
    /// one of the identifiers.
    fn given(&mut self, node: NodeNumber, identifiers: &[Identifier]) -> Result<(), Finding> {
        demand(!identifiers.iter().any(|&id| self.is_global(id)), 36, node)?;
        for &identifier in identifiers {
            let type_ = Type::Power(Rc::new(Type::Given(identifier)));
            self.define(identifier, 0, Rc::new(type_));
        }
        Ok(())
    }

    fn axiom(&mut self, text: &Text) -> Result<(), Finding> {
        let signature = self.axiom_text(text)?;
        for (identifier, type_) in signature {
            self.define(identifier, 0, type_);
        }
        Ok(())
    }

    fn schema(
        &mut self,
        name: SchemaName,
        parameters: &[Identifier],
        body: &SchemaExpr,
    ) -> Result<(), Finding> {
        self.scope.parameters = parameters.to_vec();
        let signature = self.schema_expr(body)?;
        self.scope.parameters.clear();
        self.checked.dictionary.add(Entry {
            class: Class::Schema,
            name,
            parameters: parameters.len() as u32,
            type_: Rc::new(binding(&signature)),
        });
        let meaning = SchemaMeaning { parameters: parameters.len(), signature };
        self.scope.schemas.insert(name, meaning);
        Ok(())
    }

    /// 34, 36, 38 at the Abbreviation, in this order. Its declared type is the
    /// type of its E.
    fn abbreviation(
        &mut self,
        node: NodeNumber,
        identifier: Identifier,
        parameters: &[Identifier],
        body: &Expr,
    ) -> Result<(), Finding> {
        self.scope.parameters = parameters.to_vec();
        let type_ = self.whole_piece(body, node)?;
        self.scope.parameters.clear();
        demand(!self.is_global(identifier), 36, node)?;
        demand(!type_.is_oversize(), 38, node)?;
        self.define(identifier, parameters.len(), type_);
        Ok(())
    }

    /// Is the identifier global by an earlier paragraph?
    pub fn is_global(&self, identifier: Identifier) -> bool {
        self.scope.globals.contains_key(&identifier)
    }

    fn define(&mut self, identifier: Identifier, parameters: usize, type_: Rc<Type>) {
        self.checked.dictionary.add(Entry {
            class: Class::Name,
            name: identifier,
            parameters: parameters as u32,
            type_: Rc::clone(&type_),
        });
        self.scope.globals.insert(identifier, Meaning { parameters, type_ });
    }
}
