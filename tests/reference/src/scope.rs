//! Scope: a Ref looks in the Texts around it, innermost first, then the
//! parameters, then earlier paragraphs, where alone schema names are found.

use crate::tree::{Identifier, SchemaName};
use crate::types::{Signature, Type};
use std::collections::BTreeMap;
use std::rc::Rc;

/// What a name means: its type, over so many parameters of its own.
#[derive(Clone)]
pub struct Meaning {
    pub parameters: usize,
    pub type_: Rc<Type>,
}

impl Meaning {
    pub fn plain(type_: Rc<Type>) -> Meaning {
        Meaning { parameters: 0, type_ }
    }
}

#[derive(Clone)]
pub struct SchemaMeaning {
    pub parameters: usize,
    pub signature: Signature,
}

#[derive(Default)]
pub struct Scope {
    pub texts: Vec<Signature>,
    pub parameters: Vec<Identifier>,
    pub globals: BTreeMap<Identifier, Meaning>,
    pub schemas: BTreeMap<SchemaName, SchemaMeaning>,
}

impl Scope {
    pub fn look_up(&self, identifier: Identifier) -> Option<Meaning> {
        for text in self.texts.iter().rev() {
            if let Some(type_) = text.get(&identifier) {
                return Some(Meaning::plain(Rc::clone(type_)));
            }
        }
        if let Some(at) = self.parameters.iter().position(|&p| p == identifier) {
            let parameter = Rc::new(Type::Parameter(at as u32 + 1));
            return Some(Meaning::plain(Rc::new(Type::Power(parameter))));
        }
        self.globals.get(&identifier).cloned()
    }
}
